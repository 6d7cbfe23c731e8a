"""Devices: what media queries say on them, and which conditions of `@supports` hold."""

from __future__ import annotations

import ctypes
import functools
import os
from typing import Any, Callable, Dict, NamedTuple, Optional, Tuple, Union

from . import _library as library
from ._reading import Condition
from ._words import lower

# The types of devices, by number, and the words of other fields.
TYPES = ("screen", "print", "speech")
_POINTERS = ("none", "coarse", "fine")
_GAMUTS = ("srgb", "p3", "rec2020")
_UPDATES = ("none", "slow", "fast")
_SCRIPTING = ("none", "initial-only", "enabled")
_DISPLAY_MODES = (
    "browser",
    "minimal-ui",
    "standalone",
    "fullscreen",
    "window-controls-overlay",
    "picture-in-picture",
    "tabbed",
)
_CONTRASTS = ("no-preference", "more", "less", "custom")
# A resolution is told in thousandths.
THOUSAND = 1000
# The greatest number of a device.
MOST = 2**32 - 1
# The group rule that always holds.
LAYER = "layer"
# What a list of media queries says.
HOLDS, UNKNOWN = "true", "unknown"


class Device(NamedTuple):
    """A device that media queries ask about.

    By default it is a screen of 1,280 x 800 pixels with a mouse.

    - `width`, `height`: the size of a page, in pixels. It decides `aspect-ratio`, `orientation`
      and units such as `1vw`, too.
    - `device_width`, `device_height`: its own size. By default it is that of a page.
    - `type`: "screen", "print" or "speech".
    - `resolution`: dots for each pixel, for `-webkit-device-pixel-ratio` too.
    - `dark`, `reduced_motion`, `reduced_transparency`, `forced_colors`, and `contrast`, which is
      "no-preference", "more", "less" or "custom": what its user prefers.
    - `hover`, and `pointer`, which is "none", "coarse" or "fine". `any_hover` and `any_pointer` are
      of other pointers beside it: "none", "coarse", "fine" or "coarse fine".
    - `color` and `monochrome`: bits of each colour, and of a dot without colours. `color_index`:
      how many colours a table has. `color_gamut`: "srgb", "p3" or "rec2020".
      `high_dynamic_range`: for `dynamic-range`. `grid`: whether it shows characters.
    - `update`: "none", "slow" or "fast". By default it is "none" on paper, else "fast".
    - `scripting`: "none", "initial-only" or "enabled".
    - `display_mode`: "browser", "minimal-ui", "standalone", "fullscreen",
      "window-controls-overlay", "picture-in-picture" or "tabbed".
    """

    width: int = 1280
    height: int = 800
    type: str = "screen"
    resolution: float = 1
    dark: bool = False
    reduced_motion: bool = False
    hover: bool = True
    pointer: str = "fine"
    device_width: Optional[int] = None
    device_height: Optional[int] = None
    color: int = 8
    color_index: int = 0
    monochrome: int = 0
    color_gamut: str = "srgb"
    high_dynamic_range: bool = False
    grid: bool = False
    update: Optional[str] = None
    scripting: str = "enabled"
    display_mode: str = "browser"
    reduced_transparency: bool = False
    contrast: str = "no-preference"
    forced_colors: bool = False
    any_hover: bool = False
    any_pointer: str = "none"


# The fields of which a device has one of few values, together where tests ask about both.
_BOTH = (False, True)
CHOICES: Tuple[Dict[str, Tuple[Any, ...]], ...] = (
    {"dark": _BOTH},
    {"reduced_motion": _BOTH},
    {"reduced_transparency": _BOTH},
    {"contrast": _CONTRASTS},
    {"forced_colors": _BOTH},
    {"hover": _BOTH, "any_hover": _BOTH},
    {"pointer": _POINTERS, "any_pointer": (*_POINTERS, "coarse fine")},
    {"color_gamut": _GAMUTS},
    {"high_dynamic_range": _BOTH},
    {"grid": _BOTH},
    {"update": _UPDATES},
    {"scripting": _SCRIPTING},
    {"display_mode": _DISPLAY_MODES},
)


# A device, or the type of one; or what decides of the prelude of a group rule whether its rules
# apply.
Media = Union[str, Device, Callable[[str], bool]]


class _Device(ctypes.Structure):
    _fields_ = [
        (name, ctypes.c_uint32)
        for name in (
            "width height resolution medium pointer hover dark reduced_motion device_width"
            " device_height color color_index monochrome gamut high_range grid update scripting"
            " display reduced_transparency contrast forced_colors any_hover any_coarse any_fine"
        ).split()
    ]


def device_of(media: Union[str, Device]) -> Device:
    """Returns a device, or the one of a type. What is none raises `ValueError`."""
    if not isinstance(media, Device):
        library.expect_text(media)
        media = Device(type=media)
    _numbers(media)
    return media


def holds(condition: Condition, media: Media) -> bool:
    """Whether the rules of a group rule apply."""
    if condition.name == LAYER:
        return True
    if isinstance(media, Device) or not callable(media):
        return says(condition, device_of(media)) == HOLDS
    return media(condition.prelude if condition.name == "media" else str(condition))


def says(condition: Condition, device: Device) -> str:
    """Returns whether the condition of a group rule holds on a device: "true", "false" or
    "unknown"."""
    if condition.name == "media":
        return _word("simplecss_media", library.encode(condition.prelude), _numbers(device))
    if condition.name == "supports":
        return _word("simplecss_supports", library.encode(condition.prelude), *_properties())
    return UNKNOWN


def _word(name: str, *arguments: Any) -> str:
    """Returns the word that a call writes."""
    return library.output_of(name, library.call(name, *arguments, room=len(UNKNOWN))).decode()


@functools.lru_cache(maxsize=64)
def _numbers(device: Device) -> _Device:
    """Returns the numbers of a device, as the library takes them."""
    pointers = _pointers(device.any_pointer)
    medium = _chosen("type", device.type, TYPES)
    update = (
        ("none" if TYPES[medium] == "print" else "fast") if device.update is None else device.update
    )
    return _Device(
        width=_number("width", device.width),
        height=_number("height", device.height),
        resolution=_number("resolution", round(device.resolution * THOUSAND)),
        medium=medium,
        pointer=_chosen("pointer", device.pointer, _POINTERS),
        hover=device.hover,
        dark=device.dark,
        reduced_motion=device.reduced_motion,
        device_width=_own("device_width", device.device_width),
        device_height=_own("device_height", device.device_height),
        color=_number("color", device.color),
        color_index=_number("color_index", device.color_index),
        monochrome=_number("monochrome", device.monochrome),
        gamut=_chosen("color_gamut", device.color_gamut, _GAMUTS),
        high_range=device.high_dynamic_range,
        grid=device.grid,
        update=_chosen("update", update, _UPDATES),
        scripting=_chosen("scripting", device.scripting, _SCRIPTING),
        display=_chosen("display_mode", device.display_mode, _DISPLAY_MODES),
        reduced_transparency=device.reduced_transparency,
        contrast=_chosen("contrast", device.contrast, _CONTRASTS),
        forced_colors=device.forced_colors,
        any_hover=device.any_hover,
        any_coarse="coarse" in pointers,
        any_fine="fine" in pointers,
    )


def _pointers(words: str) -> Tuple[str, ...]:
    """Returns the words of pointers, in lower case."""
    library.expect_text(words)
    return tuple(_POINTERS[_chosen("any_pointer", word, _POINTERS)] for word in words.split())


def _own(name: str, number: Optional[int]) -> int:
    """Returns a size of a device, or 0 for that of a page."""
    if number is None:
        return 0
    if number == 0:
        raise ValueError(f"the {name} of a device is from 1 to 2^32 - 1")
    return _number(name, number)


def _number(name: str, number: int) -> int:
    if not 0 <= number <= MOST:
        raise ValueError(f"the {name} of a device is from 0 to 2^32 - 1")
    return number


def _chosen(name: str, word: str, words: Tuple[str, ...]) -> int:
    library.expect_text(word)
    if lower(word) not in words:
        raise ValueError(f"the {name} of a device is {', '.join(words)}, not {word!r}")
    return words.index(lower(word))


@functools.lru_cache(maxsize=None)
def _properties() -> Tuple[bytes, Any]:
    """Returns the names of the properties that browsers know, and where each ends."""
    names = property_names()
    return library.encode("".join(names)), library.ends_of(map(len, names))


def property_names() -> Tuple[str, ...]:
    """Returns the names of the properties that browsers know."""
    path = os.path.join(os.path.dirname(__file__), "properties.txt")
    with open(path, encoding="utf-8") as file:
        text = file.read()
    return tuple(line for line in text.splitlines() if not line.startswith("#"))
