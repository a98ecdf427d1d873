// SPDX-License-Identifier: Apache-2.0 OR BSD-3-Clause

// The resources of a small monitor: cards with BARs and an interrupt, a snapshot, and a device.
// `go run monitor.go` finds the installed library with pkg-config.
package main

// #cgo pkg-config: divsharun
// #include <divsharun.h>
import "C"

import (
	"fmt"
	"log"
	"unsafe"
)

// failure returns the error of a status, with the numbers of its details, which can be nil.
func failure(status C.dvs_status, details *C.dvs_refusal) error {
	if status == C.DVS_OK {
		return nil
	}
	var line [200]C.char
	C.dvs_refusal_text(status, details, &line[0], C.size_t(len(line)))
	return fmt.Errorf("%s", C.GoString(&line[0]))
}

// check ends the program if a call fails.
func check(status C.dvs_status) {
	if err := failure(status, nil); err != nil {
		log.Fatal(err)
	}
}

func show(what string, bar C.dvs_range) { fmt.Printf("%s %x to %x\n", what, bar.start, bar.end) }

// showAll prints each allocated range, by parts of the list.
func showAll(what string, mmio *C.dvs_address_allocator) {
	var part [16]C.dvs_range
	for from, count := C.uint64_t(0), C.size_t(len(part)); count == C.size_t(len(part)); {
		check(C.dvs_range_list(mmio, from, &part[0], C.size_t(len(part)), &count))
		for _, bar := range part[:count] {
			show(what, bar)
			from = bar.end + 1
		}
	}
}

// Card is a card with an interrupt and BARs.
type Card struct {
	interrupt C.uint32_t
	bars      []C.dvs_range
}

// plug allocates an interrupt and all BARs of a card, or nothing.
func plug(mmio *C.dvs_address_allocator, interrupts *C.dvs_id_allocator,
	requests []C.dvs_request) (*Card, error) {
	card := &Card{bars: make([]C.dvs_range, len(requests))}
	if err := failure(C.dvs_id_allocate(interrupts, &card.interrupt), nil); err != nil {
		return nil, err
	}
	var details C.dvs_refusal
	status := C.dvs_address_allocator_allocate_all(mmio, &requests[0], C.size_t(len(requests)),
		&card.bars[0], nil, &details)
	if err := failure(status, &details); err != nil {
		check(C.dvs_id_free(interrupts, card.interrupt, nil))
		return nil, err
	}
	return card, nil
}

// unplug frees what a card has.
func unplug(mmio *C.dvs_address_allocator, interrupts *C.dvs_id_allocator, card *Card) {
	for _, bar := range card.bars {
		check(C.dvs_range_free(mmio, bar, nil))
	}
	check(C.dvs_id_free(interrupts, card.interrupt, nil))
}

// plugCards plugs a card that is too large, and three cards for two interrupts, and unplugs them.
// It returns a snapshot of what was allocated.
func plugCards(mmio *C.dvs_address_allocator) []byte {
	requests := []C.dvs_request{
		{size: 0x4000, alignment: 0x4000, policy: C.DVS_LAST, high: 0xfebfffff},
		{size: 0x10000000, alignment: 0x10000000, policy: C.DVS_FIRST, low: 0x100000000},
	}
	tooLarge := []C.dvs_request{requests[0],
		{size: 0x1000000000, alignment: 0x1000000000, policy: C.DVS_FIRST}}
	var interrupts *C.dvs_id_allocator
	check(C.dvs_id_allocator_new(5, 6, &interrupts, nil))
	defer C.dvs_id_allocator_destroy(interrupts)
	if _, err := plug(mmio, interrupts, tooLarge); err != nil {
		fmt.Println("a card is too large")
	}
	for i := 0; i < 3; i++ {
		if card, err := plug(mmio, interrupts, requests); err == nil {
			defer unplug(mmio, interrupts, card)
		} else {
			fmt.Println("a card does not fit, so it has no BAR")
		}
	}
	showAll("allocated", mmio)
	var text *C.char
	var length C.size_t
	check(C.dvs_address_allocator_save(mmio, &text, &length))
	defer C.dvs_text_destroy(text)
	return C.GoBytes(unsafe.Pointer(text), C.int(length))
}

func main() {
	var mmio, restored *C.dvs_address_allocator
	apic := C.dvs_range{start: 0xfec00000, end: 0xfec00fff}
	check(C.dvs_address_allocator_with_held(0xc0000000, 0xf40000000, &apic, 1, &mmio, nil, nil))
	defer C.dvs_address_allocator_destroy(mmio)
	saved := plugCards(mmio)
	text := (*C.char)(unsafe.Pointer(&saved[0]))
	check(C.dvs_address_allocator_read(text, C.size_t(len(saved)), &restored))
	defer C.dvs_address_allocator_destroy(restored)
	showAll("still allocated", mmio)
	var bar C.dvs_range
	var details C.dvs_refusal
	if C.dvs_range_allocate_exact(restored, 16, 16, 0xfebfc010, &bar, &details) != C.DVS_OK {
		show("in the way", details.other)
	}

	var bus *C.dvs_device_manager
	var disk C.dvs_device
	check(C.dvs_device_manager_new(5, 23, 0xe0000000, 0x100000, &bus, nil))
	defer C.dvs_device_manager_destroy(bus)
	check(C.dvs_device_reserve_first(bus, 0x1000, 0x1000, &disk, nil))
	show("the disk", disk._range)
	check(C.dvs_device_release(bus, disk.id, nil))
}
