// store LIMIT FILE..: keeps files of less than 64 MiB in a store, for a tenant with LIMIT bytes, reads them back, and writes their addresses. Four goroutines
// prepare the parts of a file. It uses the proved library libb3store by cgo: PKG_CONFIG_PATH=PREFIX/lib/pkgconfig go run store.go LIMIT FILE ..
package main

// #cgo pkg-config: b3store
// #include <b3store.h>
import "C"

import (
	"bytes"
	"fmt"
	"log"
	"os"
	"strconv"
	"unsafe"
)

const goroutines, chunkLen = 4, 1024

var (
	store        C.b3store
	tenant, work C.uint64_t
	why          C.b3store_why
)

type prepared struct {
	part   C.b3store_part
	answer C.uint32_t
}

// prepare prepares a part of an upload of total bytes. It uses no store, so it needs no lock.
func prepare(total, offset int, content []byte) (one prepared) {
	var work C.uint64_t
	one.answer = C.b3store_prepare(&one.part, C.uint64_t(total), false, C.uint64_t(offset), (*C.uint8_t)(&content[0]), C.size_t(len(content)), &work)
	return one
}

// file keeps content, of which each goroutine prepares a part, and returns its address.
func file(content []byte) (sealed C.b3store_sealed, answer C.uint32_t) {
	var upload C.uint64_t
	if answer = C.b3store_begin(&store, tenant, C.uint64_t(len(content)), &upload, &why); answer != 0 {
		return
	}
	parts, count := make(chan prepared), 0
	maxLen := (len(content)/(goroutines*chunkLen) + 1) * chunkLen
	for offset := 0; offset < len(content); offset += maxLen {
		end := offset + maxLen
		if end > len(content) {
			end = len(content)
		}
		go func(offset int, part []byte) { parts <- prepare(len(content), offset, part) }(offset, content[offset:end])
		count++
	}
	for ; count > 0; count-- {
		one := <-parts
		if answer == 0 {
			answer = one.answer
		}
		if answer == 0 {
			answer = C.b3store_put(&store, upload, &one.part, &C.b3store_progress{}, &why, &work)
		}
		C.b3store_close(unsafe.Pointer(&one.part)) // unless it was put
	}
	if answer == 0 {
		answer = C.b3store_seal(&store, upload, &sealed, &why, &work)
	}
	if answer != 0 {
		C.b3store_abort(&store, upload, &C.b3store_why{})
	}
	return
}

// keep files what a file has, reads it back, and writes its address.
func keep(name string) error {
	var object C.b3store_object
	var copied C.size_t
	content, fault := os.ReadFile(name)
	if fault != nil {
		return fault
	}
	room := make([]byte, len(content)+1)
	sealed, answer := file(content)
	if answer == C.B3STORE_OVER_QUOTA {
		return fmt.Errorf("%s: the tenant has too few bytes left: %d", name, why.number)
	}
	if answer == 0 {
		answer = C.b3store_fetch(&store, tenant, &sealed.address, &object, &why)
		C.b3store_read(unsafe.Pointer(&object), 0, (*C.uint8_t)(&room[0]), C.size_t(len(room)), &copied)
		C.b3store_close(unsafe.Pointer(&object))
	}
	if answer != 0 || !bytes.Equal(room[:copied], content) {
		return fmt.Errorf("%s: %s", name, C.GoString(C.b3store_text_of(answer)))
	}
	_, fault = fmt.Printf("%x  %s\n", C.GoBytes(unsafe.Pointer(&sealed.address), 32), name)
	return fault
}

func main() {
	limit, fault := strconv.ParseUint(append(os.Args, "")[1], 10, 64)
	if fault != nil || C.b3store_open(&store, 1, C.B3STORE_MAX_ENTRIES, 1) != 0 || C.b3store_open_tenant(&store, C.uint64_t(limit), &tenant, &why) != 0 {
		log.Fatal("usage: store LIMIT FILE..")
	}
	status := 0
	for _, name := range os.Args[2:] {
		if fault := keep(name); fault != nil {
			log.Print(fault)
			status = 1
		}
	}
	os.Exit(status)
}
