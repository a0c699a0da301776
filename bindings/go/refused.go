package plistconv

// #include <plistconv.h>
import "C"

import "fmt"

// A Refusal is why an input is refused. Its value is the number of the refusal. As an error it is what a *RefusedError
// wraps, so errors.Is(err, plistconv.DuplicateKey) asks for one.
type Refusal uint8

// The refusals by number. docs/FORMATS.md says when each is answered.
const (
	TooShort            Refusal = 1  // a binary file has fewer than 42 bytes
	BadHeader           Refusal = 2  // a binary file does not begin with bplist00
	BadTrailer          Refusal = 3  // the trailer of a binary file does not fit the file
	BadOffset           Refusal = 4  // the offset of an object is in the header, or not before the offset table
	BadReference        Refusal = 5  // a reference is not below the number of objects
	CutObject           Refusal = 6  // an object extends into the offset table
	BadMarker           Refusal = 7  // a marker is none of the format
	NullObject          Refusal = 8  // an object is a null
	UidObject           Refusal = 9  // an object is a UID
	SetObject           Refusal = 10 // an object is a set
	NotAscii            Refusal = 11 // an ASCII string has a byte above 7f
	WideInteger         Refusal = 12 // an integer of 16 bytes does not fit into 8
	KeyNotText          Refusal = 13 // a key is not a string
	DuplicateKey        Refusal = 14 // two keys of a dictionary are equal
	Cycle               Refusal = 15 // a reference leads back to a container on the path to it
	TooDeep             Refusal = 16 // the value is deeper than 512 levels
	TooManyNodes        Refusal = 17 // the value has more than 16,777,216 nodes
	TooMuchPayload      Refusal = 18 // the strings and data of the value have more than 1,073,741,824 bytes
	BadUtf8             Refusal = 20 // a text is not UTF-8
	XmlForm             Refusal = 21 // a text begins as an XML property list does
	UnexpectedCharacter Refusal = 23 // a character begins no token
	UnclosedString      Refusal = 24 // a quoted string has no end
	UnclosedComment     Refusal = 25 // a comment has no end
	BadEscape           Refusal = 26 // no hexadecimal digit follows \U
	OctalRange          Refusal = 27 // an octal escape is above octal 177
	OddData             Refusal = 28 // a hexadecimal digit of data has no second one
	BadData             Refusal = 29 // data has another character, or no end
	Expected            Refusal = 30 // a token does not fit, or the text ends too early
	Junk                Refusal = 31 // a token follows the end of the value
	BadUtf16            Refusal = 32 // a text with a UTF-16 byte order mark is not UTF-16
	NotInOpenStep       Refusal = 40 // the value has no OpenStep text, since it has a number, a boolean or a date
	ReadFailed          Refusal = 50 // a file cannot be read. Only the program answers this
	WriteFailed         Refusal = 51 // a file cannot be written. Only the program answers this
	InputTooLarge       Refusal = 52 // the input has more than 4,294,967,295 bytes
	OutOfMemory         Refusal = 60 // out of memory
)

// Name returns the name, as the program prints it, or "" if no refusal has the number.
func (refusal Refusal) Name() string {
	name := C.plistconv_refusal_name(C.uint(refusal))
	if name == nil {
		return ""
	}
	return C.GoString(name)
}

func (refusal Refusal) String() string {
	return fmt.Sprintf("%d %s", uint8(refusal), refusal.Name())
}

func (refusal Refusal) Error() string { return "refused " + refusal.String() }

// A Unit is what the place of a refusal is.
type Unit uint8

const (
	NoPlace Unit = iota // there is none
	Object              // the number of an object of a binary file
	Octet               // the offset of a byte in a text, its byte order mark included
)

// A RefusedError says why an input is refused, and where.
type RefusedError struct {
	Refusal Refusal
	Unit    Unit
	Place   uint64 // in Unit, and 0 if there is none
	Second  bool   // whether the second input of Same is the one that is refused
}

// Error returns what the program prints after the path: "refused 14 DuplicateKey at octet 9".
func (refused *RefusedError) Error() string {
	switch refused.Unit {
	case Object:
		return fmt.Sprintf("%v at object %d", refused.Refusal.Error(), refused.Place)
	case Octet:
		return fmt.Sprintf("%v at octet %d", refused.Refusal.Error(), refused.Place)
	}
	return refused.Refusal.Error()
}

// Unwrap returns the Refusal.
func (refused *RefusedError) Unwrap() error { return refused.Refusal }

// answered returns the error of a call that returned this number, or nil.
func answered(number C.uint8_t, told *C.plistconv_refusal) error {
	if number == 0 {
		return nil
	}
	refused := &RefusedError{Refusal: Refusal(number), Second: told.input == 2}
	if told.unit == C.PLISTCONV_OBJECT || told.unit == C.PLISTCONV_OCTET {
		refused.Unit, refused.Place = Unit(told.unit), uint64(told.place)
	}
	return refused
}
