"""The library's decoders and encoders, as `include/jillapun.h` has them: of wholes, and of parts up to a loss."""

import ctypes
from typing import Any

from . import _library as c
from ._results import refuse

# How a call for a part ends.
INPUT_EMPTY, OUTPUT_FULL, MALFORMED, UNMAPPABLE = range(4)


class DecoderWords(ctypes.Structure):
    """What a decoder keeps between calls: the library's own."""

    _fields_ = [
        ("is_there", ctypes.c_bool),
        ("is_finished", ctypes.c_bool),
        ("encoding", c.Byte),
        ("seeks_utf8", ctypes.c_bool),
        ("seeks_utf16_be", ctypes.c_bool),
        ("seeks_utf16_le", ctypes.c_bool),
        ("mode", c.Byte),
        ("held_len", c.Byte),
        ("held", c.Byte * 6),
        ("pending_len", c.Byte),
        ("pending", c.Byte * 6),
    ]


class EncoderWords(ctypes.Structure):
    """What an encoder keeps between calls: the library's own."""

    _fields_ = [("is_there", ctypes.c_bool), ("encoding", c.Byte), ("set", c.Byte)]


class Decoder(ctypes.Structure):
    """A decoder: there is nothing to free."""

    _fields_ = [("tables", c.Tables), ("words", DecoderWords)]


class Encoder(ctypes.Structure):
    """An encoder: there is nothing to free."""

    _fields_ = [("tables", c.Tables), ("words", EncoderWords)]


class Progress(ctypes.Structure):
    """What a call of a decoder did."""

    _fields_ = [
        ("read", c.Size),
        ("written", c.Size),
        ("outcome", c.Byte),
        ("malformed_length", c.Byte),
        ("malformed_after", c.Byte),
        ("had_errors", ctypes.c_bool),
    ]


class EncoderProgress(ctypes.Structure):
    """What a call of an encoder did."""

    _fields_ = [
        ("read", c.Size),
        ("written", c.Size),
        ("outcome", c.Byte),
        ("had_unmappable", ctypes.c_bool),
        ("scalar", ctypes.c_uint32),
    ]


def _declared(name: str, *parameters: Any) -> Any:
    """An export that returns a status, declared for this module alone."""
    call = c.library[name]
    call.restype, call.argtypes = c.Byte, parameters
    return call


_DECODER, _ENCODER = ctypes.POINTER(Decoder), ctypes.POINTER(Encoder)
_LENT, _ROOM = (ctypes.c_char_p, c.Size), (ctypes.c_void_p, c.Size)
_STEP = (*_ROOM, *_ROOM, ctypes.c_bool)
_DECODE, _ENCODE = (_DECODER, *_STEP, ctypes.POINTER(Progress)), (_ENCODER, *_STEP, ctypes.POINTER(EncoderProgress))

decode_whole = _declared("jillapun_decode", c.Tables, c.Byte, c.Byte, *_LENT, *_ROOM, ctypes.POINTER(c.Decoded))
encode_whole = _declared("jillapun_encode", c.Tables, c.Byte, *_LENT, *_ROOM, ctypes.POINTER(c.Size))
decode_replacing = _declared("jillapun_decoder_decode_to_utf8", *_DECODE)
decode_stopping = _declared("jillapun_decoder_decode_to_utf8_without_replacement", *_DECODE)
encode_replacing = _declared("jillapun_encoder_encode_from_utf8", *_ENCODE)
encode_stopping = _declared("jillapun_encoder_encode_from_utf8_without_replacement", *_ENCODE)

encoding_in_force = _declared("jillapun_decoder_encoding", _DECODER)

_new_decoder = _declared("jillapun_decoder_new", c.Tables, c.Byte, c.Byte, _DECODER)
_new_encoder = _declared("jillapun_encoder_new", c.Tables, c.Byte, _ENCODER)


def new_decoder(tables: c.Tables, encoding: int, mark: int) -> Decoder:
    """A decoder of a new stream."""
    handle = Decoder()
    checked(_new_decoder(tables, encoding, mark, handle))
    return handle


def new_encoder(tables: c.Tables, encoding: int) -> Encoder:
    """An encoder of a new stream."""
    handle = Encoder()
    checked(_new_encoder(tables, encoding, handle))
    return handle


def checked(status: int) -> None:
    """Raises what a status says that is not `OK`."""
    if status != c.OK:
        refuse(status)
