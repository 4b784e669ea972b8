package rudzkvano

import (
	"bytes"
	"encoding/json"
	"strings"
)

// told is a response whose errors are changed. All else stays as it is.
type told struct {
	Errors []toldError     `json:"errors,omitempty"`
	Data   json.RawMessage `json:"data,omitempty"`
}

type toldError struct {
	Message   string          `json:"message"`
	Locations json.RawMessage `json:"locations,omitempty"`
	Path      json.RawMessage `json:"path,omitempty"`
}

// explained has the text of a response, or of an array of these, whose errors say of a column that was left out why it was.
func explained(text []byte, unread map[string]error) ([]byte, error) {
	var list []told
	isList := bytes.HasPrefix(text, []byte("["))
	if !isList {
		list = make([]told, 1)
	}
	var into any = &list
	if !isList {
		into = &list[0]
	}
	if err := json.Unmarshal(text, into); err != nil {
		return nil, err
	}
	for _, response := range list {
		for place := range response.Errors {
			message := &response.Errors[place].Message
			if why, found := unread[strings.TrimPrefix(*message, "no column ")]; found && strings.HasPrefix(*message, "no column ") {
				*message = strings.ToValidUTF8(why.Error(), "\uFFFD")
			}
		}
	}
	changed := new(bytes.Buffer)
	encoder := json.NewEncoder(changed)
	encoder.SetEscapeHTML(false)
	err := encoder.Encode(into)
	return bytes.TrimSuffix(changed.Bytes(), []byte("\n")), err
}
