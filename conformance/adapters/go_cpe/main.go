// Answers cases by go-cpe. go_cpe.sh beside this folder builds and runs it.
package main

import (
	"bufio"
	"encoding/json"
	"fmt"
	"os"

	"github.com/knqyf263/go-cpe/common"
	"github.com/knqyf263/go-cpe/matching"
	"github.com/knqyf263/go-cpe/naming"
)

type asked struct {
	ID    string
	Kind  string
	Input struct {
		Text, Attribute, Source, Target string
		Name                            map[string]*string
	}
}

var refused = map[string]any{"refused": true}

var relations = map[matching.Relation]string{
	matching.DISJOINT: "DISJOINT", matching.SUBSET: "SUBSET", matching.SUPERSET: "SUPERSET", matching.EQUAL: "EQUAL", matching.UNDEFINED: "UNDEFINED",
}

// values are the attributes of a name; nil is NA, and what is ANY is left out.
func values(name common.WellFormedName) map[string]any {
	found := map[string]any{}
	for attribute, value := range name {
		logical, isLogical := value.(common.LogicalValue)
		if isLogical && logical.IsNA() {
			found[attribute] = nil
		} else if !isLogical {
			found[attribute] = value
		}
	}
	return found
}

func unbound(unbind func(string) (common.WellFormedName, error), text string) any {
	name, err := unbind(text)
	if err != nil {
		return refused
	}
	return map[string]any{"name": values(name)}
}

func bound(bind func(common.WellFormedName) string, given map[string]*string) any {
	name := common.NewWellFormedName()
	for attribute, text := range given {
		var value any
		if text == nil {
			value, _ = common.NewLogicalValue("NA")
		} else {
			value = *text
		}
		if name.Set(attribute, value) != nil {
			return refused
		}
	}
	return map[string]any{"text": bind(name)}
}

func related(it asked) any {
	source, err := naming.UnbindFS(it.Input.Source)
	if err != nil {
		return refused
	}
	target, err := naming.UnbindFS(it.Input.Target)
	if err != nil {
		return refused
	}
	if it.Kind == "relate-values" {
		return map[string]any{"relation": relations[matching.CompareWFNs(source, target)[it.Input.Attribute]]}
	}
	return map[string]any{"relation": ofNames(source, target)}
}

// ofNames asks in the order of the report; go-cpe has a call for each relation of names.
func ofNames(source, target common.WellFormedName) string {
	switch {
	case matching.IsDisjoint(source, target):
		return "DISJOINT"
	case matching.IsEqual(source, target):
		return "EQUAL"
	case matching.IsSubset(source, target):
		return "SUBSET"
	case matching.IsSuperset(source, target):
		return "SUPERSET"
	}
	return "UNDEFINED"
}

func answer(it asked) any {
	switch it.Kind {
	case "unbind-fs":
		return unbound(naming.UnbindFS, it.Input.Text)
	case "unbind-uri":
		return unbound(naming.UnbindURI, it.Input.Text)
	case "bind-fs":
		return bound(naming.BindToFS, it.Input.Name)
	case "bind-uri":
		return bound(naming.BindToURI, it.Input.Name)
	case "relate-values", "relate-names":
		return related(it)
	}
	return map[string]any{"offered": false}
}

func main() {
	lines := bufio.NewScanner(os.Stdin)
	lines.Buffer(nil, 1<<20)
	for lines.Scan() {
		var it asked
		if err := json.Unmarshal(lines.Bytes(), &it); err != nil {
			fmt.Fprintln(os.Stderr, err)
			os.Exit(1)
		}
		written, err := json.Marshal(map[string]any{"id": it.ID, "result": answer(it)})
		if err != nil {
			fmt.Fprintln(os.Stderr, err)
			os.Exit(1)
		}
		fmt.Println(string(written))
	}
}
