// Answers cases by the library of cpe, as bindings/go calls it. cpe_go.sh beside this folder builds and runs it.
package main

import (
	"bufio"
	"cpe"
	"encoding/json"
	"errors"
	"fmt"
	"os"
	"regexp"
	"strings"
)

type record map[string]any

type entry struct {
	Name        string `json:"name"`
	Deprecation *struct {
		Kind       string   `json:"kind"`
		Successors []string `json:"successors"`
	} `json:"deprecation"`
}

type asked struct {
	ID    string
	Kind  string
	Input struct {
		Text, Attribute, Source, Target, Ask, Mode string
		Name                                       map[string]*string
		Entries                                    []entry
		Deprecate                                  record
		Items                                      []string
		Checks                                     []record
		Test                                       record
	}
}

// pair is an attribute in the text of a name: a logical value, or a text in double quotes.
var pair = regexp.MustCompile(`(\w+)=(?:(ANY|NA)|"((?:[^"\\]|\\.)*)")`)

// errRefused is why a record is refused.
var errRefused = errors.New("a record is refused")

func values(text string) record {
	found := record{}
	for _, it := range pair.FindAllStringSubmatch(text, -1) {
		switch it[2] {
		case "NA":
			found[it[1]] = nil
		case "":
			found[it[1]] = it[3]
		}
	}
	return found
}

func textOf(name map[string]*string) string {
	var pairs []string
	for attribute, value := range name {
		if value == nil {
			pairs = append(pairs, attribute+"=NA")
		} else {
			pairs = append(pairs, attribute+`="`+*value+`"`)
		}
	}
	return "wfn:[" + strings.Join(pairs, ",") + "]"
}

// records is what a fresh session writes for these records.
func records(command string, given []record) ([]string, error) {
	session, err := cpe.Open(command)
	if err != nil {
		return nil, err
	}
	defer session.Close()
	var answers strings.Builder
	for _, it := range given {
		line, err := json.Marshal(it)
		if err != nil {
			return nil, err
		}
		answer, err := session.Line(string(line))
		if err != nil {
			return nil, err
		}
		answers.WriteString(answer)
	}
	answer, _, err := session.End()
	answers.WriteString(answer)
	return strings.FieldsFunc(answers.String(), func(it rune) bool { return it == '\n' }), err
}

// dictionary is the records that make one: all entries, and then their deprecations.
func dictionary(entries []entry) []record {
	var made []record
	for _, it := range entries {
		made = append(made, record{"do": "entry", "name": it.Name})
	}
	for _, it := range entries {
		if it.Deprecation != nil {
			made = append(made, deprecation(record{"name": it.Name, "kind": it.Deprecation.Kind, "successors": it.Deprecation.Successors}))
		}
	}
	return made
}

func deprecation(given record) record {
	return record{"do": "deprecate", "date": "2024-01-01", "name": given["name"], "kind": given["kind"], "successors": given["successors"]}
}

// accepted is what a session writes for records, none of which is refused.
func accepted(command string, given []record) ([]string, error) {
	lines, err := records(command, given)
	for _, it := range lines {
		if strings.HasPrefix(it, "refused") {
			return nil, errRefused
		}
	}
	return lines, err
}

// withFirstWord is the second word of each line that begins with this word.
func withFirstWord(word string, lines []string) []string {
	found := []string{}
	for _, it := range lines {
		if words := strings.Split(it, " "); words[0] == word {
			found = append(found, words[1])
		}
	}
	return found
}

func last(lines []string) string {
	line := lines[len(lines)-1]
	return line[strings.LastIndexByte(line, ' ')+1:]
}

func ask(it asked, do string) ([]string, error) {
	return accepted("resolve", append(dictionary(it.Input.Entries), record{"do": do, "name": it.Input.Ask}))
}

func related(it asked) (any, error) {
	found, err := cpe.Relate(it.Input.Source, it.Input.Target)
	of := map[string]cpe.Relation{
		"": found.Whole, "part": found.Part, "vendor": found.Vendor, "product": found.Product, "version": found.Version, "update": found.Update,
		"edition": found.Edition, "language": found.Language, "sw_edition": found.SwEdition, "target_sw": found.TargetSw,
		"target_hw": found.TargetHw, "other": found.Other,
	}
	return record{"relation": of[it.Input.Attribute].String()}, err
}

func deprecated(it asked) (any, error) {
	if _, err := accepted("resolve", dictionary(it.Input.Entries)); err != nil {
		return nil, err
	}
	_, err := accepted("resolve", append(dictionary(it.Input.Entries), deprecation(it.Input.Deprecate)))
	if err == errRefused {
		return record{"accepted": false}, nil
	}
	return record{"accepted": true}, err
}

func evaluated(it asked) (any, error) {
	given := dictionary(it.Input.Entries)
	for _, item := range it.Input.Items {
		given = append(given, record{"do": "item", "name": item})
	}
	for _, check := range it.Input.Checks {
		check["do"] = "check"
		given = append(given, check)
	}
	mode := it.Input.Mode
	if mode == "" {
		mode = "plain"
	}
	lines, err := accepted("evaluate", append(given, record{"do": "statement", "id": "it", "mode": mode, "test": it.Input.Test}))
	if err != nil {
		return nil, err
	}
	return record{"truth": last(lines)}, nil
}

func answer(it asked) (any, error) {
	switch it.Kind {
	case "unbind-fs", "unbind-uri":
		text, err := cpe.Unbind(it.Input.Text)
		return record{"name": values(text)}, err
	case "bind-fs":
		text, err := cpe.BindFS(textOf(it.Input.Name))
		return record{"text": text}, err
	case "bind-uri":
		text, err := cpe.BindURI(textOf(it.Input.Name))
		return record{"text": text}, err
	case "relate-values", "relate-names":
		return related(it)
	case "identifier":
		_, err := accepted("resolve", []record{{"do": "entry", "name": it.Input.Text}})
		return record{"accepted": err == nil}, nil
	case "lookup":
		lines, err := ask(it, "lookup")
		if err != nil {
			return nil, err
		}
		return record{"state": last(lines)}, nil
	case "chain":
		lines, err := ask(it, "chain")
		return record{"ends": withFirstWord("end", lines)}, err
	case "search":
		lines, err := ask(it, "search")
		return record{"found": withFirstWord("entry", lines)}, err
	case "deprecate":
		return deprecated(it)
	case "evaluate":
		return evaluated(it)
	}
	return record{"offered": false}, nil
}

// result is the answer, or that the case is refused; each other error ends the adapter.
func result(it asked) any {
	found, err := answer(it)
	var refused *cpe.Refused
	if errors.As(err, &refused) {
		return record{"refused": true, "place": refused.Place}
	}
	if err == errRefused {
		return record{"refused": true}
	}
	if err != nil {
		fmt.Fprintln(os.Stderr, err)
		os.Exit(1)
	}
	return found
}

func main() {
	lines := bufio.NewScanner(os.Stdin)
	lines.Buffer(nil, 1<<20)
	for lines.Scan() {
		var it asked
		if err := json.Unmarshal(lines.Bytes(), &it); err != nil {
			fmt.Fprintln(os.Stderr, err)
			os.Exit(1)
		}
		written, err := json.Marshal(record{"id": it.ID, "result": result(it)})
		if err != nil {
			fmt.Fprintln(os.Stderr, err)
			os.Exit(1)
		}
		fmt.Println(string(written))
	}
}
