package rudzkvano

import "fmt"

// SchemaFault is the fault of a schema or its bindings by its number on the page on bindings. Line and Column are 0 where it has none. Reason says
// what is wrong, in a sentence.
type SchemaFault struct {
	Number, Line, Column int
	InBindings           bool
	Reason               string
}

func (f *SchemaFault) Error() string {
	text := "schema"
	if f.InBindings {
		text = "bindings"
	}
	return fmt.Sprintf("S%d at %s:%d:%d: %s", f.Number, text, f.Line, f.Column, f.Reason)
}
