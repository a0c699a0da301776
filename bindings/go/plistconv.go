// Package plistconv gives property lists their canonical form, by the C library libplistconv.
//
// A property list is a tree of strings, numbers, booleans, dates, data, arrays and dictionaries. It can be written in
// many ways; its canonical file is the same for all of them, which is proved of the library. Every function reads
// binary property lists (bplist00) and OpenStep text. If it refuses the input, its error is a *RefusedError.
//
// Scalars are hashed under a random key, one for the process, so nobody can pick input that is slow because its scalars
// collide. No answer depends on the key. The functions may be called from any goroutine.
//
// A call needs up to 1 MiB of the stack for C code. That has 8 MiB with glibc, but 128 KiB with musl, unless the program
// is linked with -Wl,-z,stack-size=1048576.
package plistconv

// #cgo pkg-config: plistconv
// #include <plistconv.h>
import "C"

import (
	"crypto/rand"
	"fmt"
	"math"
	"sync"
	"unsafe"
)

// A Verdict is what Check finds of a binary property list.
type Verdict struct {
	Canonical bool   // whether it is a canonical file
	Rule      int    // if not, the number of a rule that is broken, from 0 to 7
	Object    uint64 // and the number of the object at which it is
}

// Canonical returns the canonical file of a property list: the binary file that is the same for all inputs with the
// same value.
func Canonical(input []byte) ([]byte, error) {
	return filled(guess(input, 2), func(into []byte, length *C.size_t, refusal *C.plistconv_refusal) C.uint8_t {
		return C.plistconv_canonical(first(input), C.size_t(len(input)), key(), first(into), C.size_t(len(into)),
			length, refusal)
	})
}

// OpenStep returns the OpenStep text of a property list. That has no numbers, booleans or dates, so a property list
// with one is refused with NotInOpenStep.
func OpenStep(input []byte) (string, error) {
	text, err := filled(guess(input, 2), func(into []byte, length *C.size_t, refusal *C.plistconv_refusal) C.uint8_t {
		return C.plistconv_text(first(input), C.size_t(len(input)), first(into), C.size_t(len(into)), length, refusal)
	})
	return string(text), err
}

// Print returns a property list as text for people. Two print the same if and only if they are equal.
func Print(input []byte) (string, error) {
	text, err := filled(guess(input, 4), func(into []byte, length *C.size_t, refusal *C.plistconv_refusal) C.uint8_t {
		return C.plistconv_print(first(input), C.size_t(len(input)), first(into), C.size_t(len(into)), length, refusal)
	})
	return string(text), err
}

// Same returns whether two property lists are equal, which is whether their canonical files are identical. It refuses
// the second only if it accepts the first.
func Same(one, other []byte) (bool, error) {
	var equal C.uint8_t
	var refusal C.plistconv_refusal
	number := C.plistconv_same(first(one), C.size_t(len(one)), first(other), C.size_t(len(other)), key(), &equal,
		&refusal)
	return equal == 1, answered(number, &refusal)
}

// Lint returns nil if a property list is accepted, and else why it is refused.
func Lint(input []byte) error {
	var refusal C.plistconv_refusal
	number := C.plistconv_lint(first(input), C.size_t(len(input)), &refusal)
	return answered(number, &refusal)
}

// Check returns whether a binary property list is already canonical. It refuses input that does not have the layout of
// a binary file, as OpenStep text does not, with TooShort, BadHeader or BadTrailer.
func Check(file []byte) (Verdict, error) {
	var finding C.plistconv_finding
	var refusal C.plistconv_refusal
	number := C.plistconv_check(first(file), C.size_t(len(file)), key(), &finding, &refusal)
	if err := answered(number, &refusal); err != nil {
		return Verdict{}, err
	}
	return Verdict{finding.canonical == 1, int(finding.rule), uint64(finding.object)}, nil
}

// LibraryVersion returns the version of the library that is loaded, as "0.3.0".
func LibraryVersion() string {
	number := uint(C.plistconv_version())
	return fmt.Sprintf("%d.%d.%d", number/10000, number/100%100, number%100)
}

// first returns a pointer to the first byte, or nil if there is none, which the calls of the header allow.
func first(octets []byte) *C.uint8_t {
	if len(octets) == 0 {
		return nil
	}
	return (*C.uint8_t)(unsafe.Pointer(&octets[0]))
}

var (
	secret [C.PLISTCONV_HASH_KEY_OCTETS]byte
	once   sync.Once
)

// key returns the hash key of this process, which nobody outside learns.
func key() *C.uint8_t {
	once.Do(func() {
		if _, err := rand.Read(secret[:]); err != nil {
			panic("plistconv: no random bytes for a hash key: " + err.Error())
		}
	})
	return first(secret[:])
}

// guess returns a first guess at the size of an output: so many bytes for each byte of the input.
func guess(input []byte, factor int) int {
	if len(input) > (math.MaxInt-256)/factor {
		return 256
	}
	return factor*len(input) + 256
}

// filled returns what write writes to a buffer of this size, or of the size that it asks for.
func filled(size int, write func([]byte, *C.size_t, *C.plistconv_refusal) C.uint8_t) ([]byte, error) {
	for {
		var length C.size_t
		var refusal C.plistconv_refusal
		into := make([]byte, size)
		if err := answered(write(into, &length, &refusal), &refusal); err != nil {
			return nil, err
		}
		if uint64(length) <= uint64(size) {
			return into[:length:length], nil
		}
		size = int(length)
	}
}
