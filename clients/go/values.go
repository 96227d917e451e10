package relay

import (
	"bytes"
	"encoding/json"
	"fmt"
	"io"
	"strconv"
	"strings"
)

// Shown is what a slot of a view shows: the value at a pointer, or how many elements or members
// that has.
type Shown struct {
	Pointer string
	IsSize  bool
}

func isSameView(one, other []Shown) bool {
	if len(one) != len(other) {
		return false
	}
	for i, shown := range one {
		if shown != other[i] {
			return false
		}
	}
	return true
}

// View shows the values at these pointers.
func View(pointers ...string) []Shown {
	view := make([]Shown, len(pointers))
	for i, pointer := range pointers {
		view[i] = Shown{Pointer: pointer}
	}
	return view
}

// Size shows how many elements or members stand at a pointer.
func Size(pointer string) Shown { return Shown{pointer, true} }

// MarshalJSON is the form of a request.
func (s Shown) MarshalJSON() ([]byte, error) {
	if s.IsSize {
		return json.Marshal(map[string]string{"size": s.Pointer})
	}
	return json.Marshal(s.Pointer)
}

// UnmarshalJSON takes the same form.
func (s *Shown) UnmarshalJSON(text []byte) error {
	var size struct{ Size *string }
	if json.Unmarshal(text, &size) == nil && size.Size != nil {
		*s = Size(*size.Size)
		return nil
	}
	s.IsSize = false
	return json.Unmarshal(text, &s.Pointer)
}

// path is of a view that the relay took, so of pointers.
func (s Shown) path() []string {
	path, err := tokens(s.Pointer)
	if err != nil {
		return []string{s.Pointer}
	}
	return path
}

// Slot is the value at a pointer, alone, or nothing if the pointer leads to none. A number is a
// json.Number. Nobody writes to a slot, and nobody may: sort what Decode gives, which is a copy.
type Slot []any

// Decode makes another value of that of a slot, as encoding/json does. It gives whether there is
// one.
func (s Slot) Decode(into any) (bool, error) {
	if len(s) == 0 {
		return false, nil
	}
	text, err := json.Marshal(s[0])
	if err != nil {
		return true, err
	}
	return true, json.Unmarshal(text, into)
}

// As is the value of a slot as another type; the type's zero if there is none.
func As[T any](slot Slot) (T, error) {
	var value T
	_, err := slot.Decode(&value)
	return value, err
}

func slotsOf(told []any) ([]Slot, error) {
	slots := make([]Slot, len(told))
	for i, one := range told {
		slot, isList := one.([]any)
		if !isList || len(slot) > 1 {
			return nil, errAstray
		}
		slots[i] = slot
	}
	return slots, nil
}

// read keeps numbers as they are written: as floating point large ones would be rounded. It fails
// if the text is not one value alone.
func read(text string, into any) error {
	reader := json.NewDecoder(strings.NewReader(text))
	reader.UseNumber()
	if err := reader.Decode(into); err != nil {
		return err
	}
	if _, err := reader.Token(); err != io.EOF {
		return fmt.Errorf("relay: more than one value: %v", err)
	}
	return nil
}

// textOf is a value as JSON, without the escapes that encoding/json has for HTML.
func textOf(value any) ([]byte, error) {
	var text bytes.Buffer
	writer := json.NewEncoder(&text)
	writer.SetEscapeHTML(false)
	err := writer.Encode(value)
	return bytes.TrimSpace(text.Bytes()), err
}

// jsonOf is a copy of a value as JSON, in which equal numbers are equal. It fails for what JSON
// cannot say, and for a number that is not whole or has more than 64 bits.
func jsonOf(value any) (any, error) {
	text, err := textOf(value)
	if err != nil {
		return nil, err
	}
	var copied any
	if err := read(string(text), &copied); err != nil {
		return nil, err
	}
	return whole(copied)
}

func whole(value any) (any, error) {
	var err error
	switch holder := value.(type) {
	case json.Number:
		number, err := strconv.ParseInt(holder.String(), 10, 64)
		if err != nil {
			return nil, fmt.Errorf("relay: %s is no whole number of 64 bits", holder)
		}
		return json.Number(strconv.FormatInt(number, 10)), nil
	case []any:
		for i, part := range holder {
			if holder[i], err = whole(part); err != nil {
				return nil, err
			}
		}
	case map[string]any:
		for name, part := range holder {
			if holder[name], err = whole(part); err != nil {
				return nil, err
			}
		}
	}
	return value, nil
}
