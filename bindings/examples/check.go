// Prints what `iimwire check` prints for a file and, after each envelope, its headline if it has
// one.
//
//	CGO_CFLAGS=-I$PWD/bindings/c CGO_LDFLAGS=-L$PWD/bindings/out go build -o check bindings/examples/check.go
//	LD_LIBRARY_PATH=bindings/out ./check FILE
//
// If libiim-dev is installed, neither the flags nor LD_LIBRARY_PATH are needed.
package main

// #cgo LDFLAGS: -liim
// #include <iim.h>
import "C"

import (
	"fmt"
	"os"
	"unsafe"
)

// The greatest length of a ticket with the limits of wire copy, which all zeros select.
const mostOfTicket = 65536 + 6*512 + 256

// Returns bytes as C accepts them: a pointer and a length.
func lent(octets []byte) (*C.uint8_t, C.size_t) {
	if len(octets) == 0 {
		return nil, 0
	}
	return (*C.uint8_t)(unsafe.Pointer(&octets[0])), C.size_t(len(octets))
}

// Feeds the bytes from the beginning of an envelope, and returns the answer and the ticket.
func feed(octets []byte) (C.iim_answer, []byte) {
	var answer C.iim_answer
	text, ticket := make([]byte, len(octets)), make([]byte, mostOfTicket)
	piece, pieceLength := lent(octets)
	textOut, textLength := lent(text)
	ticketOut, ticketLength := lent(ticket)
	C.iim_feed(C.iim_limits{}, nil, 0, 0, piece, pieceLength, textOut, textLength, ticketOut, ticketLength, &answer)
	return answer, ticket[:answer.ticket]
}

// Returns the line of a refusal.
func refusal(number int, answer C.iim_answer) string {
	var layer, cause [64]C.char
	C.iim_layer_name(answer.layer, &layer[0], 64)
	C.iim_cause_name(answer.cause, &cause[0], 64)
	return fmt.Sprintf("%d refused at octet %d by layer %s on %d:%02d, cause %d %s",
		number, answer.octet, C.GoString(&layer[0]), answer.rec, answer.set, answer.cause, C.GoString(&cause[0]))
}

// Returns the headline in a ticket, and whether the ticket has one.
func headline(ticket []byte) ([]byte, bool) {
	var datasets [512]C.iim_dataset // the most that the limits of wire copy allow
	var answer C.iim_answer
	octets, length := lent(ticket)
	C.iim_fields(octets, length, 0, &datasets[0], 512, &answer)
	for _, dataset := range datasets[:answer.written] {
		if dataset.rec == 2 && dataset.set == 105 {
			return ticket[dataset.data.offset:][:dataset.data.count], true
		}
	}
	return nil, false
}

func main() {
	rest, fault := os.ReadFile(os.Args[1])
	if fault != nil {
		fmt.Fprintln(os.Stderr, fault)
		os.Exit(3)
	}
	for number := 1; len(rest) > 0; number++ {
		answer, ticket := feed(rest)
		if answer.status == C.IIM_MORE {
			octets, length := lent(ticket)
			C.iim_end(C.iim_limits{}, octets, length, answer.octet, &answer)
		}
		if answer.status != C.IIM_DONE {
			fmt.Println(refusal(number, answer))
			os.Exit(1)
		}
		fmt.Printf("%d accepted %d octets\n", number, answer.octet)
		if octets, found := headline(ticket); found {
			fmt.Printf("%s\n", octets)
		}
		rest = rest[answer.used:]
	}
}
