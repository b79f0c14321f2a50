// Times calls of the library for C from Go beside go-cpe, a package of Go alone, on the lines of a file: beside names FILE, or
// beside pairs FILE, whose lines are two names with a space between them. ../go_cpe.py builds and runs it.
package main

import (
	"bufio"
	"cpe"
	"fmt"
	"os"
	"runtime"
	"strings"
	"syscall"

	"github.com/knqyf263/go-cpe/common"
	"github.com/knqyf263/go-cpe/matching"
	"github.com/knqyf263/go-cpe/naming"
)

// answer is what one side says of a line: a text, or nothing where it refuses the line.
type answer struct {
	text string
	read bool
}

func ours(line string) answer {
	text, err := cpe.Unbind(line)
	return answer{text, err == nil}
}

func unbound(name string) (common.WellFormedName, error) {
	if strings.HasPrefix(name, "cpe:/") {
		return naming.UnbindURI(name)
	}
	return naming.UnbindFS(name)
}

func theirs(line string) answer {
	name, err := unbound(line)
	if err != nil {
		return answer{}
	}
	return answer{name.String(), true}
}

func ourPair(line string) answer {
	source, target, _ := strings.Cut(line, " ")
	covers, err := cpe.Covers(source, target)
	return answer{fmt.Sprint(covers), err == nil}
}

func theirPair(line string) answer {
	source, target, _ := strings.Cut(line, " ")
	a, err := unbound(source)
	if err != nil {
		return answer{}
	}
	b, err := unbound(target)
	if err != nil {
		return answer{}
	}
	return answer{fmt.Sprint(matching.IsSuperset(a, b) || matching.IsEqual(a, b)), true}
}

// guarded counts a panic as a refusal: go-cpe ends so on some texts.
func guarded(say func(string) answer) func(string) answer {
	return func(line string) (said answer) {
		defer func() {
			if recover() != nil {
				said = answer{}
			}
		}()
		return say(line)
	}
}

func linesOf(path string) ([]string, error) {
	file, err := os.Open(path)
	if err != nil {
		return nil, err
	}
	defer file.Close()
	var lines []string
	scanner := bufio.NewScanner(file)
	scanner.Buffer(nil, 1<<20)
	for scanner.Scan() {
		lines = append(lines, scanner.Text())
	}
	return lines, scanner.Err()
}

// processor is the nanoseconds of a processor that this process has had, in all its threads.
func processor() int64 {
	var used syscall.Rusage
	if err := syscall.Getrusage(syscall.RUSAGE_SELF, &used); err != nil {
		panic(err)
	}
	return used.Utime.Nano() + used.Stime.Nano()
}

// timed gives the answers, and the nanoseconds a line. What a side leaves to be collected is collected in its time.
func timed(lines []string, say func(string) answer) ([]answer, float64) {
	answers := make([]answer, len(lines))
	runtime.GC()
	began := processor()
	for number, line := range lines {
		answers[number] = say(line)
	}
	runtime.GC()
	return answers, float64(processor()-began) / float64(len(lines))
}

func main() {
	if len(os.Args) != 3 || (os.Args[1] != "names" && os.Args[1] != "pairs") {
		fmt.Fprintln(os.Stderr, "usage: beside names|pairs FILE")
		os.Exit(2)
	}
	lines, err := linesOf(os.Args[2])
	if err != nil {
		fmt.Fprintln(os.Stderr, err)
		os.Exit(2)
	}
	our, their := ours, theirs
	if os.Args[1] == "pairs" {
		our, their = ourPair, theirPair
	}
	a, ourTime := timed(lines, our)
	b, theirTime := timed(lines, guarded(their))
	refused, taken, other := 0, 0, 0
	for number := range lines {
		switch {
		case a[number].read && !b[number].read:
			refused++
		case !a[number].read && b[number].read:
			taken++
		case a[number].read && os.Args[1] == "pairs" && a[number].text != b[number].text:
			other++
		}
	}
	// nanoseconds a line on both sides, names that go-cpe alone refuses, others that it alone takes, and pairs that it answers otherwise
	fmt.Printf("%.0f %.0f %d %d %d %d\n", ourTime, theirTime, len(lines), refused, taken, other)
}
