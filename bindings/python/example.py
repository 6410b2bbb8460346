#!/usr/bin/env python3
"""A lane of the weighbridge: a truck is weighed empty, comes back loaded, and its donor gets a receipt."""

import reefcandor

LIFETIME = 2 * 60 * 60 * 1000  # in milliseconds: an empty weight counts for two hours


def receipt(yard, plate, gross):
    """The receipt for a loaded truck, in grams; only a live tare under this very plate gives a net weight."""
    try:
        tare = yard[plate]
    except reefcandor.Refused as refused:
        return f"{plate!r}: no receipt, {refused}: weigh empty"
    return f"{plate!r}: {(gross - tare) // 1000} kg donated"


def main():
    now = 1_000
    yard = reefcandor.Dict(64, clock=lambda: now)
    yard.set("AB12", 14_200_000, lifetime=LIFETIME)

    print(receipt(yard, "AB12", 22_660_000))
    # the camera could not read the plate: no other truck's tare comes out
    print(receipt(yard, "", 22_660_000))
    now += LIFETIME
    print(receipt(yard, "AB12", 22_660_000))


if __name__ == "__main__":
    main()
