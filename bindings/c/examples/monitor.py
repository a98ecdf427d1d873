#!/usr/bin/env python3
# SPDX-License-Identifier: Apache-2.0 OR BSD-3-Clause
"""The resources of a small monitor: cards with BARs and an interrupt, a snapshot, and a device.

It needs cffi, and finds the declarations of the installed library with pkg-config."""
import subprocess

import cffi

FOLDER = ["pkg-config", "--variable=includedir", "divsharun"]
ffi = cffi.FFI()
with open(subprocess.check_output(FOLDER, text=True).strip() + "/divsharun.cdef") as declarations:
    ffi.cdef(declarations.read())
dvs = ffi.dlopen("libdivsharun.so.3")


class Failure(Exception):
    """The error of a call: its status, the numbers of its details, and the range in the way."""

    def __init__(self, status, details):
        line = ffi.new("char[200]")
        dvs.dvs_refusal_text(status, details, line, len(line))
        super().__init__(ffi.string(line).decode())
        self.status = status
        self.other = (details.other.start, details.other.end) if details else None


def check(status, details=ffi.NULL):
    if status != dvs.DVS_OK:
        raise Failure(status, details)


def created(kind, call, *arguments):
    """Returns the object that a call creates, which is destroyed with its last reference."""
    made = ffi.new(f"dvs_{kind} **")
    check(call(*arguments, made, *no_details(call, len(arguments) + 1)))
    return ffi.gc(made[0], getattr(dvs, f"dvs_{kind}_destroy"))


def no_details(call, given):
    """Returns the null pointers for the results that are left out at the end of a call."""
    return [ffi.NULL] * (len(ffi.typeof(call).args) - given)


def show(what, bar):
    print(f"{what} {bar.start:x} to {bar.end:x}")


def ranges(mmio):
    """Yields each allocated range, by parts of the list."""
    part, count, begin = ffi.new("dvs_range[16]"), ffi.new("size_t *", 16), 0
    while count[0] == len(part):
        check(dvs.dvs_range_list(mmio, begin, part, len(part), count))
        for bar in part[0:count[0]]:
            yield bar
            begin = bar.end + 1


class Card:
    """A card with an interrupt and BARs. It gets all of them or none."""

    def __init__(self, mmio, interrupts, requests):
        self.mmio, self.interrupts = mmio, interrupts
        interrupt, details = ffi.new("uint32_t *"), ffi.new("dvs_refusal *")
        self.bars = ffi.new("dvs_range[]", len(requests))
        check(dvs.dvs_id_allocate(interrupts, interrupt))
        self.interrupt = interrupt[0]
        try:
            check(dvs.dvs_address_allocator_allocate_all(
                mmio, requests, len(requests), self.bars, ffi.NULL, details), details)
        except Failure:
            check(dvs.dvs_id_free(interrupts, self.interrupt, ffi.NULL))
            raise

    def unplug(self):
        for bar in self.bars:
            check(dvs.dvs_range_free(self.mmio, bar, ffi.NULL))
        check(dvs.dvs_id_free(self.interrupts, self.interrupt, ffi.NULL))


def plug_cards(mmio):
    """Plugs a card that is too large, and three cards for two interrupts, and unplugs them. Returns a
    snapshot of what was allocated."""
    bars = [
        {"size": 0x4000, "alignment": 0x4000, "policy": dvs.DVS_LAST, "high": 0xfebfffff},
        {"size": 0x10000000, "alignment": 0x10000000, "policy": dvs.DVS_FIRST, "low": 0x100000000},
    ]
    large = {"size": 0x1000000000, "alignment": 0x1000000000, "policy": dvs.DVS_FIRST}
    requests = ffi.new("dvs_request[]", bars)
    interrupts = created("id_allocator", dvs.dvs_id_allocator_new, 5, 6)
    cards = []
    try:
        Card(mmio, interrupts, ffi.new("dvs_request[]", [bars[0], large]))
    except Failure as failure:
        if failure.status == dvs.DVS_RESOURCE_NOT_AVAILABLE:
            print("a card is too large")
    for _ in range(3):
        try:
            cards.append(Card(mmio, interrupts, requests))
        except Failure as failure:
            if failure.status != dvs.DVS_RESOURCE_NOT_AVAILABLE:
                raise
            print("a card does not fit, so it has no BAR")
    for bar in ranges(mmio):
        show("allocated", bar)
    text, length = ffi.new("char **"), ffi.new("size_t *")
    check(dvs.dvs_address_allocator_save(mmio, text, length))
    saved = ffi.unpack(text[0], length[0])
    dvs.dvs_text_destroy(text[0])
    for card in cards:
        card.unplug()
    return saved


def main():
    apic = ffi.new("dvs_range *", (0xfec00000, 0xfec00fff))
    mmio = created("address_allocator", dvs.dvs_address_allocator_with_held,
                   0xc0000000, 0xf40000000, apic, 1)
    saved = plug_cards(mmio)
    restored = created("address_allocator", dvs.dvs_address_allocator_read, saved, len(saved))
    for bar in ranges(mmio):
        show("still allocated", bar)
    bar, details = ffi.new("dvs_range *"), ffi.new("dvs_refusal *")
    if dvs.dvs_range_allocate_exact(restored, 16, 16, 0xfebfc010, bar, details) != dvs.DVS_OK:
        show("in the way", details.other)
    bus = created("device_manager", dvs.dvs_device_manager_new, 5, 23, 0xe0000000, 0x100000)
    disk = ffi.new("dvs_device *")
    check(dvs.dvs_device_reserve_first(bus, 0x1000, 0x1000, disk, ffi.NULL))
    show("the disk", disk.range)
    check(dvs.dvs_device_release(bus, disk.id, ffi.NULL))


if __name__ == "__main__":
    main()
