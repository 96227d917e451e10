package relay

// Operation is one of a JSON Patch (RFC 6902). Its value is whatever encoding/json can say.
type Operation struct {
	Op, Path, From string
	Value          any
}

// Patch is applied as a whole or not at all.
type Patch []Operation

func Add(path string, value any) Operation { return Operation{Op: "add", Path: path, Value: value} }

func Remove(path string) Operation { return Operation{Op: "remove", Path: path} }

func Replace(path string, value any) Operation {
	return Operation{Op: "replace", Path: path, Value: value}
}

func Move(from, path string) Operation { return Operation{Op: "move", From: from, Path: path} }

func Copy(from, path string) Operation { return Operation{Op: "copy", From: from, Path: path} }

// Test makes an edit conditional: it is refused if another value stands there.
func Test(path string, value any) Operation {
	return Operation{Op: "test", Path: path, Value: value}
}

func (o Operation) hasValue() bool { return o.Op == "add" || o.Op == "replace" || o.Op == "test" }

func (o Operation) hasFrom() bool { return o.Op == "move" || o.Op == "copy" }

// MarshalJSON leaves out what the operation does not have.
func (o Operation) MarshalJSON() ([]byte, error) {
	members := map[string]any{"op": o.Op, "path": o.Path}
	if o.hasValue() {
		members["value"] = o.Value
	}
	if o.hasFrom() {
		members["from"] = o.From
	}
	return textOf(members)
}

// wire is an operation as it is decoded by the settings of whoever decodes what it is in.
type wire Operation

// UnmarshalJSON keeps numbers as they are written.
func (o *Operation) UnmarshalJSON(text []byte) error { return read(string(text), (*wire)(o)) }

func patchOf(told []wire) Patch {
	patch := make(Patch, len(told))
	for i, one := range told {
		patch[i] = Operation(one)
	}
	return patch
}

// checked is a copy, so that what is sent is what it was when it was asked for.
func (p Patch) checked() (Patch, error) {
	own := make(Patch, len(p))
	for i, operation := range p {
		value, err := jsonOf(operation.Value)
		if err != nil {
			return nil, err
		}
		own[i] = operation
		own[i].Value = value
	}
	return own, nil
}

// isGuarded says whether it is refused if something else stands there than when it was made.
func (p Patch) isGuarded() bool { return len(p) > 0 && p[0].Op == "test" }
