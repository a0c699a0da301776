package plistconv_test

import (
	"bufio"
	"bytes"
	"encoding/hex"
	"errors"
	"fmt"
	"os"
	"regexp"
	"strconv"
	"strings"
	"sync"
	"testing"

	"plistconv"
)

// cell returns an answer as bindings/rows.txt has it.
func cell(output []byte, err error) string {
	var refused *plistconv.RefusedError
	if !errors.As(err, &refused) {
		return hex.EncodeToString(output)
	}
	units := map[plistconv.Unit]string{plistconv.NoPlace: "none", plistconv.Object: "object", plistconv.Octet: "octet"}
	return fmt.Sprintf("%d/%s/%d", refused.Refusal, units[refused.Unit], refused.Place)
}

func verdict(found plistconv.Verdict, err error) string {
	if err != nil {
		return cell(nil, err)
	}
	if found.Canonical {
		return "canonical"
	}
	return fmt.Sprintf("C%d/%d", found.Rule, found.Object)
}

// answers returns the answers of all functions, in the order of the cells.
func answers(t *testing.T, octets []byte) []string {
	canonical, err := plistconv.Canonical(octets)
	text, textErr := plistconv.OpenStep(octets)
	print, printErr := plistconv.Print(octets)
	if lint := plistconv.Lint(octets); cell(nil, lint) != cell(nil, err) {
		t.Errorf("lint says %v, not %v", lint, err)
	}
	if err == nil {
		if same, err := plistconv.Same(octets, canonical); !same || err != nil {
			t.Errorf("the canonical file is not equal: %v", err)
		}
	}
	return []string{
		cell(canonical, err), cell([]byte(text), textErr), cell([]byte(print), printErr), verdict(plistconv.Check(octets)),
	}
}

func TestRows(t *testing.T) {
	file, err := os.Open("../rows.txt")
	if err != nil {
		t.Fatal(err)
	}
	defer file.Close()
	rows, lines := 0, bufio.NewScanner(file)
	for lines.Scan() {
		cells := strings.Split(lines.Text(), " ")
		if strings.HasPrefix(lines.Text(), "#") {
			continue
		}
		rows++
		octets, err := hex.DecodeString(strings.Trim(cells[1], "-"))
		if err != nil {
			t.Fatal(err)
		}
		t.Run(cells[0], func(t *testing.T) {
			if ours := answers(t, octets); strings.Join(ours, " ") != strings.Join(cells[2:], " ") {
				t.Errorf("answers %v, not %v", ours, cells[2:])
			}
		})
	}
	if lines.Err() != nil || rows < 50 {
		t.Errorf("%d rows: %v", rows, lines.Err())
	}
}

// The refusals have the names and numbers of the library's source.
func TestRefusals(t *testing.T) {
	source, err := os.ReadFile("../../crates/plist_value/src/refusals.rt")
	if err != nil {
		t.Fatal(err)
	}
	names := map[plistconv.Refusal]string{}
	for _, match := range regexp.MustCompile(`(?m)^    (\w+) = (\d+),$`).FindAllSubmatch(source, -1) {
		number, _ := strconv.ParseUint(string(match[2]), 10, 8)
		names[plistconv.Refusal(number)] = string(match[1])
	}
	if len(names) != 35 {
		t.Errorf("%d refusals", len(names))
	}
	for number := 0; number < 256; number++ {
		if refusal := plistconv.Refusal(number); refusal.Name() != names[refusal] {
			t.Errorf("%d is %q, not %q", number, refusal.Name(), names[refusal])
		}
	}
	constants, err := os.ReadFile("refused.go")
	if err != nil {
		t.Fatal(err)
	}
	for number, name := range names {
		line := fmt.Sprintf(`(?m)^\t%s +Refusal += +%d +//`, name, number)
		if !regexp.MustCompile(line).Match(constants) {
			t.Errorf("there is no constant %s = %d", name, number)
		}
	}
}

func TestErrors(t *testing.T) {
	_, err := plistconv.Same([]byte("(a)"), []byte("{a=1;a=2;}"))
	var refused *plistconv.RefusedError
	if !errors.As(err, &refused) || !refused.Second || refused.Place != 5 || refused.Unit != plistconv.Octet {
		t.Errorf("%v", err)
	}
	if !errors.Is(err, plistconv.DuplicateKey) || errors.Is(err, plistconv.TooShort) {
		t.Errorf("%v is not DuplicateKey alone", err)
	}
	if err := plistconv.Lint([]byte("bplist00")); err.Error() != "refused 1 TooShort" {
		t.Errorf("%v", err)
	}
	if version := plistconv.LibraryVersion(); !regexp.MustCompile(`^\d+\.\d+\.\d+$`).MatchString(version) {
		t.Errorf("version %s", version)
	}
}

// Values of the greatest depth, and one level more, in goroutines.
func TestDepth(t *testing.T) {
	nested := func(levels int) []byte {
		return append(bytes.Repeat([]byte("("), levels), bytes.Repeat([]byte(")"), levels)...)
	}
	var group sync.WaitGroup
	for worker := 0; worker < 8; worker++ {
		group.Add(1)
		go func() {
			defer group.Done()
			if err := plistconv.Lint(nested(512)); err != nil {
				t.Error(err)
			}
			if err := plistconv.Lint(nested(513)); !errors.Is(err, plistconv.TooDeep) {
				t.Errorf("%v is not TooDeep", err)
			}
		}()
	}
	group.Wait()
}

func Example() {
	byTool, byHand := []byte("{ a = (x, y); }"), []byte(`"a" = (x, "y",);`)
	same, _ := plistconv.Same(byTool, byHand)
	text, _ := plistconv.Print(byHand)
	fmt.Printf("%v\n%s", same, text)
	// Output:
	// true
	// {
	//   "a" => [
	//     "x"
	//     "y"
	//   ]
	// }
}

func ExampleLint() {
	err := plistconv.Lint([]byte("{ a = b; a = c; }"))
	fmt.Println(err, errors.Is(err, plistconv.DuplicateKey))
	// Output: refused 14 DuplicateKey at octet 9 true
}

func ExampleCheck() {
	file, _ := plistconv.Canonical([]byte("(a, b)"))
	found, _ := plistconv.Check(file)
	file[len(file)-32] = 1 // the trailer of a canonical file begins with six zeros
	changed, _ := plistconv.Check(file)
	fmt.Println(found.Canonical, changed.Canonical, changed.Rule)
	// Output: true false 1
}
