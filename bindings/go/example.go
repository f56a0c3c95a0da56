// Lists the pairs of a file in UTF-8, and prints the file with a value changed: example FILE KEY VALUE.
package main

/*
#include <stdlib.h>
#include "todrenval.h"
*/
import "C"

import (
	"errors"
	"fmt"
	"os"
	"unsafe"
)

// Pair is a key with its value, and the number of the line that they begin in.
type Pair struct {
	Line       int
	Key, Value string
}

// Pairs returns the pairs of a file, in order. Comments may hold anything.
func Pairs(file []byte) ([]Pair, error) {
	result := C.todrenval_items_new(front(file), C.size_t(len(file)), C.TODRENVAL_UTF_8, 0)
	defer C.free(unsafe.Pointer(result.bytes))
	var pairs []Pair
	cursor := C.todrenval_walk(unsafe.Pointer(result.bytes), result.length)
	for item := (C.struct_todrenval_item{}); C.todrenval_next_item(&cursor, &item); {
		pairs = append(pairs, Pair{
			int(item.line),
			string(bytes(unsafe.Pointer(item.key), item.key_length)),
			string(bytes(unsafe.Pointer(item.value), item.value_length)),
		})
	}
	return pairs, failure(result)
}

// SetValue returns the file with the value of a key set, and with everything else as it was.
func SetValue(file []byte, key, value string) ([]byte, error) {
	k, v := []byte(key), []byte(value)
	result := C.todrenval_set_value_new(front(file), C.size_t(len(file)), C.TODRENVAL_UTF_8, 0,
		front(k), C.size_t(len(k)), front(v), C.size_t(len(v)))
	defer C.free(unsafe.Pointer(result.bytes))
	return append([]byte(nil), bytes(unsafe.Pointer(result.bytes), result.length)...), failure(result)
}

// What C gets of bytes in Go, besides their length. It is used during the call alone.
func front(of []byte) unsafe.Pointer {
	if len(of) == 0 {
		return nil
	}
	return unsafe.Pointer(&of[0])
}

// Bytes that C has, until they are freed.
func bytes(at unsafe.Pointer, length C.size_t) []byte {
	return unsafe.Slice((*byte)(at), int(length))
}

// The error of a call, or nil.
func failure(result C.struct_todrenval_result) error {
	if result.status == C.TODRENVAL_OK {
		return nil
	}
	var room [C.TODRENVAL_REASON_ROOM]C.char
	reason := C.GoString(C.todrenval_reason(result.status, &room[0]))
	if result.line > 0 {
		return fmt.Errorf("line %d: %s", result.line, reason)
	}
	return errors.New(reason)
}

func run(name, key, value string) error {
	file, err := os.ReadFile(name)
	if err != nil {
		return err
	}
	pairs, err := Pairs(file)
	for _, pair := range pairs {
		fmt.Printf("line %d, %s: %s\n", pair.Line, pair.Key, pair.Value)
	}
	if err != nil {
		return err
	}
	changed, err := SetValue(file, key, value)
	if err != nil {
		return err
	}
	_, err = os.Stdout.Write(changed)
	return err
}

func main() {
	if len(os.Args) != 4 {
		fmt.Fprintln(os.Stderr, "usage: example FILE KEY VALUE")
		os.Exit(2)
	}
	if !C.todrenval_runs_here() || C.todrenval_version() != C.TODRENVAL_VERSION {
		fmt.Fprintln(os.Stderr, "This processor is too old, or the library is of another version than its header.")
		os.Exit(2)
	}
	if err := run(os.Args[1], os.Args[2], os.Args[3]); err != nil {
		fmt.Fprintln(os.Stderr, err)
		os.Exit(1)
	}
}
