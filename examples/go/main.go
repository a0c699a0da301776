// Writes the canonical file of a property list: canonical IN OUT. Exits with 2 if the input is refused.
package main

import (
	"errors"
	"fmt"
	"os"

	"plistconv"
)

// convert writes the canonical file of one file to another.
func convert(from, to string) error {
	octets, err := os.ReadFile(from)
	if err != nil {
		return err
	}
	file, err := plistconv.Canonical(octets)
	if err != nil {
		return fmt.Errorf("%s: %w", from, err)
	}
	return os.WriteFile(to, file, 0o666)
}

func main() {
	if len(os.Args) != 3 {
		fmt.Fprintln(os.Stderr, "usage: canonical IN OUT")
		os.Exit(3)
	}
	err := convert(os.Args[1], os.Args[2])
	if err == nil {
		return
	}
	fmt.Fprintln(os.Stderr, err)
	if refused := new(plistconv.RefusedError); errors.As(err, &refused) {
		os.Exit(2)
	}
	os.Exit(4)
}
