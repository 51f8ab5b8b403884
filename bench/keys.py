#!/usr/bin/env python3
"""keys.py PEM: an RSA key that `openssl genrsa` made, as the text that `RsaKey` reads: modulus, public and private exponent in hexadecimal, a line each."""
import subprocess
import sys


def integers(der):
    """The integers of a DER sequence."""
    def head(at):
        size = der[at + 1]
        if size < 128:
            return at + 2, size
        octets = size - 128
        return at + 2 + octets, int.from_bytes(der[at + 2 : at + 2 + octets], "big")

    at, size = head(0)
    end = at + size
    while at < end:
        body, size = head(at)
        yield int.from_bytes(der[body : body + size], "big")
        at = body + size


def numbers(pem):
    """Modulus, public and private exponent of a key in PEM."""
    command = ["openssl", "rsa", "-traditional", "-outform", "DER"]
    der = subprocess.run(command, input=pem, capture_output=True, check=True).stdout
    _, modulus, public, private, *_ = integers(der)
    return modulus, public, private


def hexadecimal(number):
    """A number as whole octets in hexadecimal."""
    return number.to_bytes((number.bit_length() + 7) // 8, "big").hex()


def text(pem):
    """The text of a key in PEM."""
    return "".join(hexadecimal(number) + "\n" for number in numbers(pem))


if __name__ == "__main__":
    with open(sys.argv[1], "rb") as file:
        print(text(file.read()), end="")
