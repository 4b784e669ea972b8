package rudzkvano

import (
	"database/sql/driver"
	"errors"
	"fmt"
	"math"
	"reflect"
	"regexp"
	"strconv"
	"strings"
	"time"
	"unicode/utf8"
)

// Key has the text of a key, and a second one for a loader by two columns.
type Key [2]string

// Rows is what a batch function returns, with the names of the columns: either Rows or Items.
type Rows struct {
	Columns []string
	// Rows has the rows of all keys in any order, which the library aligns. A row belongs to the key that it has in the loader's columns, and
	// the rows of a key keep their order. A row of a key that wasn't asked for fails the batch.
	Rows [][]any
	// Items has an item for each key, in the order of the keys, as a batch function of DataLoader returns them. All rows, for a loader by no
	// column, are one item.
	Items []Item
}

// Item is what a source has for one key: its rows, or why it has none.
type Item struct {
	Rows [][]any
	Err  error
}

// keyFault is in the place of a number of rows: the key has a fault. batchFault: its whole batch failed.
const (
	keyFault   = math.MaxUint32
	batchFault = math.MaxUint32 - 1
)

// sameColumns is in the place of a number of columns: they are those of the row before.
const sameColumns = math.MaxUint32

// Loaded is what was loaded for a key: its rows, or why it has none.
type Loaded struct {
	Rows []LoadedRow
	Err  *LoadFault
}

// LoadedRow is a row of a key that was loaded. The empty text is null.
type LoadedRow struct{ Columns, Values []string }

// Get has the value in the column of this name, which is empty where there is no such column.
func (r LoadedRow) Get(column string) string {
	for place, name := range r.Columns {
		if name == column {
			return r.Values[place]
		}
	}
	return ""
}

// LoadFault is the fault of a key that was loaded, or of its whole batch.
type LoadFault struct {
	Text    string
	OfBatch bool
}

func (f *LoadFault) Error() string { return f.Text }

// loadedOf has what the library copied of each key.
func loadedOf(counts, widths []uint32, texts, faults []string) []Loaded {
	loaded, rows := make([]Loaded, len(counts)), loadedRows(widths, texts)
	for key, count := range counts {
		if count >= batchFault {
			loaded[key].Err, faults = &LoadFault{faults[0], count == batchFault}, faults[1:]
			continue
		}
		loaded[key].Rows, rows = rows[:count:count], rows[count:]
	}
	return loaded
}

// loadedRows has the rows of all keys.
func loadedRows(widths []uint32, texts []string) []LoadedRow {
	rows, columns := make([]LoadedRow, len(widths)), []string(nil)
	for number, width := range widths {
		if width != sameColumns {
			columns, texts = texts[:width:width], texts[width:]
		}
		count := len(columns)
		rows[number], texts = LoadedRow{columns, texts[:count:count]}, texts[count:]
	}
	return rows
}

// flatKeys has the texts of keys of a loader.
func flatKeys(loader *Loader, keys []Key) (flat texts, err error) {
	for _, key := range keys {
		for part := range loader.Columns {
			flat.add(key[part])
		}
	}
	if !flat.fit() {
		err = loader.misfit("the keys have more than %d bytes", uint32(math.MaxUint32))
	}
	return flat, err
}

// reply is what the library is given: for each key its number of rows or keyFault; and the names of the columns, the values of all rows and
// the faults. Rows in any order are keyed: the library aligns them with the keys, rows has how many there are, and faults the places of the keys
// with a fault. unread are the columns that are left out, since a value in them has no text, each with the reason.
type reply struct {
	columns int
	rows    []uint32
	faults  []uint32
	texts   texts
	keyed   bool
	unread  map[string]error
}

func flatten(loader *Loader, keys []Key, rows Rows) (reply, error) {
	wanted, keyed := len(keys), rows.Items == nil && len(loader.Columns) > 0
	if len(loader.Columns) == 0 {
		wanted = 1
	}
	switch {
	case rows.Items == nil:
		rows.Items = []Item{{Rows: rows.Rows}}
	case rows.Rows != nil:
		return reply{}, loader.misfit("both Rows and Items")
	case len(rows.Items) != wanted:
		return reply{}, loader.misfit("%d items for %d keys", len(rows.Items), wanted)
	}
	whole := reply{keyed: keyed, unread: map[string]error{}}
	if err := whole.add(loader, keys, rows); err != nil || len(whole.unread) == 0 {
		return whole, err
	}
	for _, column := range loader.Columns {
		if why := whole.unread[column]; keyed && why != nil {
			return whole, why
		}
	}
	done := reply{keyed: keyed, unread: whole.unread}
	if err := done.add(loader, keys, rows); err != nil || done.columns > 0 {
		return done, err
	}
	return done, done.unread[rows.Columns[0]]
}

// flattenWithoutCasts is flatten over rows in any order without those of keys that the database cast.
func flattenWithoutCasts(loader *Loader, keys []Key, rows Rows) (reply, error) {
	rest, faults, err := loader.withoutCasts(keys, rows)
	if err != nil {
		return reply{}, err
	}
	done, err := flatten(loader, keys, rest)
	for place, why := range faults {
		if why != nil {
			done.faults = append(done.faults, uint32(place))
			done.texts.add(strings.ToValidUTF8(why.Error(), "\uFFFD"))
		}
	}
	if err == nil && !done.texts.fit() {
		err = loader.misfit("its rows have more than %d bytes", uint32(math.MaxUint32))
	}
	return done, err
}

// misfit says why rows don't fit the keys that they are for.
func (l *Loader) misfit(format string, values ...any) error {
	return fmt.Errorf("loader %s: %s", l.Name, fmt.Sprintf(format, values...))
}

// add adds all but the columns that are unread already. It notes those that can't be read.
func (r *reply) add(loader *Loader, keys []Key, rows Rows) error {
	left := make([]bool, len(rows.Columns))
	for place, column := range rows.Columns {
		if _, left[place] = r.unread[column]; !left[place] {
			r.columns++
			r.texts.add(strings.ToValidUTF8(column, "\uFFFD"))
		}
	}
	for number, item := range rows.Items {
		if item.Err != nil {
			r.rows = append(r.rows, keyFault)
			continue
		}
		r.rows = append(r.rows, uint32(len(item.Rows)))
		for place, row := range item.Rows {
			if err := loader.check(rows.Columns, row); err != nil {
				return err
			}
			r.addRow(rows.Columns, left, row, func(column string, err error) error {
				if r.keyed {
					return loader.noKeyedText(column, place, keys, rows, err)
				}
				return loader.noText(column, place, keys, number, err)
			})
		}
	}
	for _, item := range rows.Items {
		if item.Err != nil {
			r.texts.add(strings.ToValidUTF8(item.Err.Error(), "\uFFFD"))
		}
	}
	if !r.texts.fit() {
		return loader.misfit("its rows have more than %d bytes", uint32(math.MaxUint32))
	}
	return nil
}

// addRow adds a row without the columns that are left out. It notes what noText makes of a value without a text.
func (r *reply) addRow(columns []string, left []bool, row []any, noText func(column string, err error) error) {
	for place, value := range row {
		if left[place] {
			continue
		}
		text, err := textOf(value)
		if _, isNoted := r.unread[columns[place]]; err != nil && !isNoted {
			r.unread[columns[place]] = noText(columns[place], err)
		}
		r.texts.add(text)
	}
}

// noText says that a value in a column has no text: in the row of this place, from 0, of the key of this number.
func (l *Loader) noText(column string, place int, keys []Key, number int, err error) error {
	of := ""
	if len(l.Columns) > 0 {
		of = " of the key " + l.quoted(keys[number])
	}
	return fmt.Errorf("loader %s, column %s, row %d%s: %w", l.Name, column, place+1, of, err)
}

// noKeyedText says the same of rows in any order, of which the one of this place has that value; or that its key has no text.
func (l *Loader) noKeyedText(column string, place int, keys []Key, rows Rows, err error) error {
	key, keyErr := l.keyOf(rows.Columns, place, rows.Rows[place])
	if keyErr != nil {
		return keyErr
	}
	before := 0
	for number, row := range rows.Rows[:place] {
		if found, err := l.keyOf(rows.Columns, number, row); err == nil && l.compared(found) == l.compared(key) {
			before++
		}
	}
	for _, asked := range keys {
		if l.compared(asked) == l.compared(key) {
			key = asked
		}
	}
	return l.noText(column, before, []Key{key}, 0, err)
}

func (l *Loader) check(columns []string, row []any) error {
	switch len(row) {
	case 0:
		return l.misfit("a row has no columns")
	case len(columns):
		return nil
	default:
		return l.misfit("a row of %d values for %d columns", len(row), len(columns))
	}
}

// notAsked says that a row, of this place from 0, has a key that wasn't asked for; or what keyOf says, where it has none.
func (l *Loader) notAsked(rows Rows, place int) error {
	key, err := l.keyOf(rows.Columns, place, rows.Rows[place])
	if err != nil {
		return err
	}
	columns := "column " + l.Columns[0]
	if len(l.Columns) == 2 {
		columns = "columns " + strings.Join(l.Columns, " and ")
	}
	return l.misfit("row %d has the key %s in %s, which wasn't asked for", place+1, l.quoted(key), columns)
}

// withoutCasts has the rows but those of which the database cast the key, as 1 for 01, and for each key that it cast a fault. It refuses a row of
// another key that wasn't asked for.
func (l *Loader) withoutCasts(keys []Key, rows Rows) (Rows, []error, error) {
	found, having := make([]Key, len(rows.Rows)), make(map[Key]bool, len(rows.Rows))
	for place, row := range rows.Rows {
		key, err := l.keyOf(rows.Columns, place, row)
		if err != nil {
			return rows, nil, err
		}
		found[place], having[l.compared(key)] = key, true
	}
	asked, alike := make(map[Key]bool, len(keys)), map[Key]bool{}
	for _, key := range keys {
		asked[l.compared(key)] = true
		if !having[l.compared(key)] {
			alike[asCast(key)] = true
		}
	}
	kept, casts := [][]any{}, map[Key]Key{}
	for place, key := range found {
		switch {
		case asked[l.compared(key)]:
			kept = append(kept, rows.Rows[place])
		case alike[asCast(key)]:
			casts[asCast(key)] = key
		default:
			return rows, nil, l.notAsked(rows, place)
		}
	}
	rows.Rows = kept
	faults := make([]error, len(keys))
	for place, key := range keys {
		if other, found := casts[asCast(key)]; found && !having[l.compared(key)] {
			faults[place] = l.misfit("a row of the key %s for the key %s", l.quoted(other), l.quoted(key))
		}
	}
	return rows, faults, nil
}

var numberParts = regexp.MustCompile(`^([+-]?)([0-9]*)(?:\.([0-9]*))?(?:e([+-]?[0-9]{1,9}))?$`)

// asCast has what is the same for texts that a database may take for the same: a number, or a text without case and blanks around it.
func asCast(key Key) Key {
	for part, text := range key {
		key[part] = strings.ToLower(strings.TrimSpace(text))
		parts := numberParts.FindStringSubmatch(key[part])
		if parts == nil || parts[2]+parts[3] == "" {
			continue
		}
		exponent, _ := strconv.Atoi(parts[4])
		digits := strings.TrimLeft(parts[2]+parts[3], "0")
		if key[part] = "0"; digits != "" {
			key[part] = fmt.Sprint(strings.TrimPrefix(parts[1], "+"), strings.TrimRight(digits, "0"), "e", exponent-len(parts[3])+len(digits))
		}
	}
	return key
}

func (l *Loader) quoted(key Key) string {
	return "'" + strings.Join(key[:len(l.Columns)], "', '") + "'"
}

// keyOf has the key that a row, of this place from 0, belongs to.
func (l *Loader) keyOf(columns []string, number int, row []any) (key Key, err error) {
	for part, wanted := range l.Columns {
		place := 0
		for place < len(columns) && columns[place] != wanted {
			place++
		}
		if place == len(columns) {
			return key, l.misfit("its rows have no column %s", wanted)
		}
		if key[part], err = textOf(row[place]); err != nil {
			return key, fmt.Errorf("loader %s, column %s, row %d: %w", l.Name, wanted, number+1, err)
		}
	}
	return key, nil
}

// compared is a key as the loader compares it.
func (l *Loader) compared(key Key) Key {
	if l.Folds {
		for part, text := range key {
			key[part] = strings.Map(func(character rune) rune {
				if 'A' <= character && character <= 'Z' {
					return character + 'a' - 'A'
				}
				return character
			}, text)
		}
	}
	return key
}

// textOf has the text of a value: of strings, bytes in UTF-8, numbers, booleans, times (ISO 8601, UTC) and what a driver.Valuer gives of these,
// and behind pointers. Nil is the empty text, and so null.
func textOf(value any) (string, error) {
	switch value := value.(type) {
	case string:
		if !utf8.ValidString(value) {
			return "", errors.New("a text isn't UTF-8")
		}
		return value, nil
	case time.Time:
		return value.UTC().Format(time.RFC3339Nano), nil
	}
	of := reflect.ValueOf(value)
	switch kind := of.Kind(); {
	case kind == reflect.Invalid || kind == reflect.Pointer && of.IsNil():
		return "", nil
	case kind == reflect.String:
		return textOf(of.String())
	case kind == reflect.Bool:
		return strconv.FormatBool(of.Bool()), nil
	case of.CanInt():
		return strconv.FormatInt(of.Int(), 10), nil
	case of.CanUint():
		return strconv.FormatUint(of.Uint(), 10), nil
	case of.CanFloat():
		return decimal(of.Float(), of.Type().Bits())
	}
	if valuer, is := value.(driver.Valuer); is {
		inner, err := valuer.Value()
		if err != nil {
			return "", err
		}
		return textOf(inner)
	}
	switch {
	case of.Kind() == reflect.Pointer:
		return textOf(of.Elem().Interface())
	case of.Kind() == reflect.Slice && of.Type().Elem().Kind() == reflect.Uint8:
		return textOf(string(of.Bytes()))
	}
	return "", fmt.Errorf("a value of type %T has no text", value)
}

// decimal has the shortest text of a number, with an exponent where it is very large or very small. NaN and infinities have none.
func decimal(number float64, bits int) (string, error) {
	if math.IsNaN(number) || math.IsInf(number, 0) {
		return "", fmt.Errorf("%v has no text", number)
	}
	format := byte('f')
	if size := math.Abs(number); size >= 1e21 || size < 1e-6 && size != 0 {
		format = 'e'
	}
	return strconv.FormatFloat(number, format, -1, bits), nil
}
