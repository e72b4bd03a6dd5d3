// A b3sum in Go that reads each file whole: the proved library libb3 by cgo.
//
//	PKG_CONFIG_PATH=PREFIX/lib/pkgconfig go run sum.go FILE ..
package main

// #cgo pkg-config: b3
// #include <b3.h>
import "C"

import (
	"fmt"
	"os"
)

// hash returns the hash of bytes.
func hash(bytes []byte) [C.B3_HASH_LEN]byte {
	var out [C.B3_HASH_LEN]byte
	first := bytes
	if len(bytes) == 0 {
		first = make([]byte, 1) // no pointer may be null
	}
	C.b3_hash((*C.uint8_t)(&first[0]), C.size_t(len(bytes)), (*C.uint8_t)(&out[0]))
	return out
}

func main() {
	status := 0
	for _, name := range os.Args[1:] {
		bytes, err := os.ReadFile(name)
		if err != nil {
			fmt.Fprintln(os.Stderr, err)
			status = 1
			continue
		}
		if _, err := fmt.Printf("%x  %s\n", hash(bytes), name); err != nil {
			fmt.Fprintln(os.Stderr, err)
			os.Exit(1)
		}
	}
	os.Exit(status)
}
