package cpe

import (
	"bufio"
	"bytes"
	"errors"
	"fmt"
	"io"
	"os"
	"os/exec"
	"strings"
	"testing"
)

const (
	fs   = "cpe:2.3:a:microsoft:internet_explorer:8.0.6001:beta:*:*:*:*:*:*"
	uri  = "cpe:/a:microsoft:internet_explorer:8.0.6001:beta"
	some = "cpe:2.3:a:microsoft:internet_explorer:8.*:*:*:*:*:*:*:*"
	wfn  = `wfn:[part="a",vendor="microsoft",product="internet_explorer",version="8\.0\.6001",update="beta",edition=ANY,` +
		`language=ANY,sw_edition=ANY,target_sw=ANY,target_hw=ANY,other=ANY]`
)

// long is a name whose text needs more room than is made at first.
var long = "cpe:2.3:a:v:" + strings.Repeat("a", 20000) + strings.Repeat(":*", 8)

// answers tries a call that answers a text.
func answers(t *testing.T, call func(string) (string, error), given, wanted string) {
	t.Helper()
	if got, err := call(given); got != wanted || err != nil {
		t.Errorf("%.80q: %.80q, %v in place of %.80q", given, got, err, wanted)
	}
}

// isRefused tries the error if no name has a text.
func isRefused(t *testing.T, err error, place int, target bool) {
	t.Helper()
	var refused *Refused
	if !errors.As(err, &refused) || *refused != (Refused{place, target}) {
		t.Errorf("%v in place of a refusal at %d", err, place)
	}
}

// is tries one of the other errors.
func is(t *testing.T, err, wanted error) {
	t.Helper()
	if err != wanted {
		t.Errorf("%v in place of %v", err, wanted)
	}
}

func open(t *testing.T, words ...string) *Session {
	t.Helper()
	session, err := Open(words...)
	if err != nil {
		t.Fatalf("%v: %v", words, err)
	}
	return session
}

func TestForms(t *testing.T) {
	answers(t, Unbind, fs, wfn)
	answers(t, Unbind, uri, wfn)
	answers(t, BindFS, wfn, fs)
	answers(t, BindURI, wfn, uri)
	text, err := Unbind(long)
	is(t, err, nil)
	answers(t, BindFS, text, long)
	_, err = Unbind("cpe:2.3:x:")
	isRefused(t, err, 8, false)
	_, err = Unbind("")
	isRefused(t, err, 0, false)
	_, err = Unbind("cpe:/\x00")
	isRefused(t, err, 5, false)
	_, err = BindFS("wfn:[")
	isRefused(t, err, 0, false)
	_, err = BindURI("wfn:[")
	isRefused(t, err, 0, false)
}

func TestPairs(t *testing.T) {
	found, err := Relate(some, fs)
	is(t, err, nil)
	if wanted := (Relations{Superset, Equal, Equal, Equal, Superset, Superset, Equal, Equal, Equal, Equal, Equal, Equal}); found != wanted {
		t.Errorf("%v in place of %v", found, wanted)
	}
	// (no two neighbours have the same)
	found, err = Relate("cpe:2.3:a:*:p:1:-:e:*:s:*:w:-", "cpe:2.3:o:v:q:1?:u:*:en:s:t:-:-")
	is(t, err, nil)
	if wanted := (Relations{Whole: Disjoint, Part: Disjoint, Vendor: Superset, Product: Disjoint, Version: Undefined, Update: Disjoint,
		Edition: Subset, Language: Superset, SwEdition: Equal, TargetSw: Superset, TargetHw: Disjoint, Other: Equal}); found != wanted {
		t.Errorf("%v in place of %v", found, wanted)
	}
	if said := fmt.Sprint(Disjoint, Equal, Subset, Superset, Undefined); said != "DISJOINT EQUAL SUBSET SUPERSET UNDEFINED" {
		t.Error(said)
	}
	for pair, wanted := range map[[2]string]bool{{some, fs}: true, {fs, some}: false, {fs, uri}: true} {
		if covers, err := Covers(pair[0], pair[1]); covers != wanted || err != nil {
			t.Errorf("%v: %v, %v", pair, covers, err)
		}
	}
	_, err = Relate("x", fs)
	isRefused(t, err, 0, false)
	_, err = Covers(fs, "cpe:/x")
	isRefused(t, err, 5, true)
}

func TestSession(t *testing.T) {
	session := open(t, "unbind")
	answers(t, session.Line, fs, wfn+"\n")
	_, err := session.Line("a\nb")
	is(t, err, ErrNotALine)
	answers(t, session.Line, "x\r", "refused 2 name 0\n")
	text, _ := Unbind(long)
	answers(t, session.Line, long, text+"\n")
	answers(t, session.Line, "", "")
	if answer, status, err := session.End(); answer != "" || status != 1 || err != nil {
		t.Errorf("%q, %d, %v at the end", answer, status, err)
	}
	_, _, err = session.End()
	is(t, err, ErrOver)
	_, err = session.Line(fs)
	is(t, err, ErrOver)
	is(t, session.Close(), nil)
	is(t, session.Close(), nil)
	_, err = session.Line(fs)
	is(t, err, ErrOver)
	_, _, err = session.End()
	is(t, err, ErrOver)
}

func TestWatch(t *testing.T) {
	session := open(t, "watch")
	defer session.Close()
	answers(t, session.Line, `{"do":"statement","id":"tls","test":{"op":"OR","of":[{"fact":"cpe:/a:gnu:gnutls"}]}}`, "changed 1 tls none FALSE\n")
	answers(t, session.Line, `{"do":"item","name":"cpe:/a:gnu:gnutls:3.8.0"}`, "changed 2 tls FALSE TRUE\n")
	answers(t, session.Line, `{"do":"item","name":"cpe:/a:gnu:gnutls:3.8.0"}`, "refused 3 exists\n")
	answers(t, session.Line, `{"do":"drop-item","name":"cpe:/a:gnu:gnutls:3.8.0"}`, "changed 4 tls TRUE FALSE\n")
}

func TestNoCommand(t *testing.T) {
	for _, words := range [][]string{{}, {""}, {"make", "5"}, {"bind"}, {"bind", ""}, {"unbind", ""}, {"unbind", "x"}, {"unbind\x00"},
		{"bind", "fs\x00"}, {"bind", "fs", "x"}} {
		session, err := Open(words...)
		is(t, err, ErrNoCommand)
		if session != nil {
			t.Errorf("%q: a session is there", words)
		}
	}
}

func TestOtherGoroutine(t *testing.T) {
	session := open(t, "unbind")
	done := make(chan bool)
	go func() {
		defer close(done)
		_, err := session.Line(fs)
		is(t, err, ErrElsewhere)
		_, _, err = session.End()
		is(t, err, ErrElsewhere)
		is(t, session.Close(), ErrElsewhere)
	}()
	<-done
	answers(t, session.Line, fs, wfn+"\n")
	is(t, session.Close(), nil)
}

func TestManyGoroutines(t *testing.T) {
	done := make(chan bool)
	for at := 0; at < 8; at++ {
		go func() {
			defer func() { done <- true }()
			session, err := Open("bind", "uri")
			is(t, err, nil)
			for round := 0; round < 2000; round++ {
				answers(t, session.Line, wfn, uri+"\n")
				answers(t, Unbind, uri, wfn)
			}
			is(t, session.Close(), nil)
		}()
	}
	for at := 0; at < 8; at++ {
		<-done
	}
}

// A thread ends with a goroutine that still has it. So threads are used again if sessions were closed, or not opened.
func TestThreadsAreGivenBack(t *testing.T) {
	threads := map[interface{}]bool{}
	for round := 0; round < 200; round++ {
		done := make(chan interface{})
		go func() {
			_, err := Open("nothing")
			is(t, err, ErrNoCommand)
			session, err := Open("unbind")
			is(t, err, nil)
			thread := session.thread
			is(t, session.Close(), nil)
			done <- thread
		}()
		threads[<-done] = true
	}
	if len(threads) > 100 {
		t.Errorf("%d threads for 200 sessions, one after the other", len(threads))
	}
}

// What no call here reaches.
func TestCodes(t *testing.T) {
	is(t, judge(4, 0), ErrMemory)
	is(t, judge(8, 0), ErrMisuse)
	is(t, judge(9, 0), ErrMisuse)
}

// speak gives lines to a session, and writes its answers.
func speak(from io.Reader, to io.Writer, words ...string) (int, error) {
	session, err := Open(words...)
	if err != nil {
		return 0, err
	}
	defer session.Close()
	lines := bufio.NewReader(from)
	for {
		line, fault := lines.ReadString('\n')
		if fault == io.EOF && line == "" {
			break
		}
		answer, err := session.Line(strings.TrimSuffix(line, "\n"))
		if err != nil {
			return 0, err
		}
		io.WriteString(to, answer)
	}
	answer, status, err := session.End()
	io.WriteString(to, answer)
	return status, err
}

// TestProgram compares sessions with the program that CPE names.
func TestProgram(t *testing.T) {
	program := os.Getenv("CPE")
	if program == "" {
		t.Skip("CPE names no program")
	}
	speaksAlike := func(lines []byte, words ...string) {
		wanted := new(bytes.Buffer)
		command := exec.Command(program, words...)
		command.Stdin, command.Stdout = bytes.NewReader(lines), wanted
		if err := command.Run(); command.ProcessState == nil {
			t.Fatal(err)
		}
		got := new(bytes.Buffer)
		status, err := speak(bytes.NewReader(lines), got, words...)
		if err != nil || status != command.ProcessState.ExitCode() || !bytes.Equal(got.Bytes(), wanted.Bytes()) {
			t.Errorf("%v: %d, %v, and %d bytes, in place of %d and %d", words, status, err, got.Len(), command.ProcessState.ExitCode(), wanted.Len())
		}
	}
	for _, it := range []string{"mixed.txt unbind", "wfn.txt bind fs", "wfn.txt bind uri", "pairs.txt compare", "dictionary.jsonl resolve",
		"inventory.jsonl evaluate", "watch.jsonl watch", "advise.jsonl advise"} {
		words := strings.Fields(it)
		lines, err := os.ReadFile("../../examples/" + words[0])
		if err != nil {
			t.Fatal(err)
		}
		speaksAlike(lines, words[1:]...)
	}
	records, err := exec.Command(program, "make", "20000").Output()
	if err != nil {
		t.Fatal(err)
	}
	speaksAlike(records, "watch")
	speaksAlike(records, "evaluate")
	// A million names and a few: the real ones, over and over.
	names, err := os.ReadFile("../../examples/names.txt")
	if err != nil {
		t.Fatal(err)
	}
	speaksAlike(bytes.Repeat(names, 1000000/bytes.Count(names, []byte("\n"))+1), "unbind")
}
