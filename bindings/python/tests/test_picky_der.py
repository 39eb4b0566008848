"""Tests of the Python package. CASES names the file that tools/bindings writes. With NO_MEMORY each allocation of the library fails."""
import array
import json
import os
import pickle
import struct
import threading
import unittest
from typing import Iterator, List, NamedTuple, Optional

import picky_der
from picky_der import DecodeError

CERTIFICATE, READ, REFUSED, UNKNOWN = range(4)


class Case(NamedTuple):
    """An input, and what `der read` says of it."""

    verdict: int
    offset: int
    der: bytes


def cases() -> Iterator[Case]:
    """The inputs."""
    with open(os.environ["CASES"], "rb") as file:
        (count,) = struct.unpack(">I", file.read(4))
        for _ in range(count):
            verdict, offset, length = struct.unpack(">3I", file.read(12))
            yield Case(verdict, offset, file.read(length))


CASES: List[Case] = list(cases())


@unittest.skipIf("NO_MEMORY" in os.environ, "there is no memory")
class Tests(unittest.TestCase):
    """What the package promises."""

    def refused(self, name: str, der: bytes) -> DecodeError:
        """The error of a check."""
        with self.assertRaises(DecodeError) as caught:
            picky_der.check(name, der)
        return caught.exception

    def one(self, it: Case) -> None:
        """A certificate, or a changed one, gets the verdict of `der read`, at its offset."""
        listed: List[picky_der.Element] = []
        broken: Optional[DecodeError] = None
        try:
            listed.extend(picky_der.elements(it.der))
        except DecodeError as error:
            broken = error
        self.assertEqual(picky_der.is_der(it.der), broken is None)
        for element in listed:
            self.assertEqual(bytes(element.content), it.der[element.offset + element.header_len :][: len(element.content)])
        try:
            picky_der.check("certificate", it.der)
        except DecodeError as error:
            self.assertNotEqual(it.verdict, CERTIFICATE)
            self.assertLessEqual(error.position, len(it.der))
            self.assertEqual(error.rule, broken and broken.rule)
            if it.verdict != UNKNOWN:
                self.assertEqual(it.verdict == READ, error.code > 100)
            if it.verdict == REFUSED:
                self.assertEqual(broken.position if broken else self.offset_of(listed, error.position, len(it.der)), it.offset)
        else:
            self.assertNotEqual(it.verdict, REFUSED)
            self.assertIsNone(broken)

    @staticmethod
    def offset_of(listed: List[picky_der.Element], position: int, length: int) -> int:
        """Where `der read` says that elements were refused at this position: the last one before it, or the bytes after the first."""
        if listed and listed[0].header_len + len(listed[0].content) <= position < length:
            return position
        return max((it.offset for it in listed if it.offset < position), default=0)

    def test_cases(self) -> None:
        """The certificates are accepted, and the changed ones get the verdict of `der read`."""
        for it in CASES:
            self.one(it)

    def test_threads(self) -> None:
        """Four threads at once come to the same."""
        wrong: List[BaseException] = []

        def run() -> None:
            try:
                for it in CASES[::4]:
                    self.one(it)
            except BaseException as error:  # pylint: disable=broad-except
                wrong.append(error)

        threads = [threading.Thread(target=run) for _ in range(4)]
        for it in threads:
            it.start()
        for it in threads:
            it.join()
        self.assertEqual(wrong, [])

    def test_parts(self) -> None:
        """A part of a certificate, and one with a byte after it, are refused at their ends."""
        der = CASES[0].der
        for cut in range(0, len(der), 53):
            self.assertLessEqual(self.refused("certificate", der[:cut]).position, cut)
        error = self.refused("Certificate", bytearray(der + b"\0"))
        self.assertEqual((error.position, error.code), (len(der), 2))

    def test_errors(self) -> None:
        """An error says which rule is broken."""
        error = self.refused("certificate", bytes.fromhex("30810100"))
        self.assertEqual((error.rule, error.clause), ("long_length", "10.1"))
        self.assertIn("X.690, 10.1", str(error))
        self.assertRaises(KeyError, picky_der.check, "passport", b"")
        self.assertRaises(DecodeError, picky_der.front, b"")

    def test_paths(self) -> None:
        """An error has the path of the element: by names, or else by numbers."""
        der = CASES[0].der
        algorithm = next(it.offset for it in picky_der.elements(der) if it.tag == 0x06)
        error = self.refused("certificate", der[:algorithm] + b"\x04" + der[algorithm + 1 :])
        self.assertEqual(error.path, "tbsCertificate.signature.algorithm")
        self.assertIn(f"at {error.position}, tbsCertificate.signature.algorithm: ", str(error))
        padded = self.refused("krb", bytes.fromhex("6B083006A00402020005"))
        self.assertEqual((padded.rule, padded.path), ("padded_integer", "0.0.0.0"))
        self.assertEqual([self.refused("krb", it).path for it in (b"", b"\x30", b"\x05\x00")], ["", "", ""])

    def test_json(self) -> None:
        """A certificate has its members in JSON, by the names of its type."""
        der = CASES[0].der
        text = picky_der.to_json("Certificate", bytearray(der))
        self.assertEqual(text, picky_der.to_json("certificate", der))
        self.assertNotIn("\n", text)
        value = json.loads(text)
        self.assertEqual(sorted(value), ["signature", "signatureAlgorithm", "tbsCertificate"])
        oid = next(it for it in picky_der.elements(der) if it.tag == 0x06)
        arcs = value["tbsCertificate"]["signature"]["algorithm"].split(".")
        self.assertEqual(bytes([40 * int(arcs[0]) + int(arcs[1])]), bytes(oid.content[:1]))
        with self.assertRaises(DecodeError) as caught:
            picky_der.to_json("certificate", der[:-1])
        self.assertEqual(caught.exception.code, self.refused("certificate", der[:-1]).code)
        self.assertRaises(KeyError, picky_der.to_json, "passport", der)
        reply = bytes.fromhex("6f1b3019a003020105a10302010fa20d300ba003020111a20404020102")
        self.assertRaises(KeyError, picky_der.to_json, "krb", reply)

    def test_from_json(self) -> None:
        """Certificates are the same bytes after they were JSON. JSON of no message is refused with a place."""
        for it in CASES[:20]:
            text = picky_der.to_json("certificate", it.der)
            self.assertEqual(picky_der.from_json("certificate", text), it.der)
            self.assertEqual(picky_der.from_json("certificate", json.dumps(json.loads(text), indent=1).encode()), it.der)
        value = json.loads(picky_der.to_json("certificate", CASES[0].der))
        del value["tbsCertificate"]["issuer"]
        with self.assertRaises(ValueError) as caught:
            picky_der.from_json("certificate", json.dumps(value))
        self.assertIn("issuer", str(caught.exception))
        self.assertIn("tbsCertificate", str(caught.exception))
        for wrong in ("", "{", "{}", "[]", "null", '{"a": 1}', b"\xff"):
            self.assertRaises(ValueError, picky_der.from_json, "certificate", wrong)
        self.assertRaises(KeyError, picky_der.from_json, "krb", "{}")
        self.assertRaises(KeyError, picky_der.from_json, "passport", "{}")
        self.assertRaises(TypeError, picky_der.from_json, "certificate", 5)

    def test_from_ber(self) -> None:
        """Certificates with an indefinite length are the same. What isn't BER of one is refused with a place."""
        for it in CASES[:20]:
            header = 2 if it.der[1] < 0x80 else 2 + (it.der[1] & 0x7F)
            form = b"\x30\x80" + it.der[header:] + b"\0\0"
            self.assertRaises(DecodeError, picky_der.check, "certificate", form)
            self.assertEqual(picky_der.from_ber("certificate", form), it.der)
            self.assertEqual(picky_der.from_ber("certificate", memoryview(it.der)), it.der)
            with self.assertRaises(ValueError) as caught:
                picky_der.from_ber("certificate", form[:-2])
            self.assertIn("not BER at ", str(caught.exception))
        for wrong in (b"", b"\x30\x00", b"\x30\x80\0"):
            self.assertRaises(ValueError, picky_der.from_ber, "certificate", wrong)
        self.assertRaises(KeyError, picky_der.from_ber, "krb", b"")
        self.assertRaises(KeyError, picky_der.from_ber, "passport", b"")

    def test_elements(self) -> None:
        """Elements come with their contents, and deep ones too."""
        outer, inner = picky_der.elements(memoryview(bytes.fromhex("3003020105")))
        self.assertEqual((outer.tag, outer.is_constructed, inner.depth, inner.content), (0x30, True, 1, b"\x05"))
        deep = b""
        for _ in range(200):
            deep = picky_der.encode(0x30, deep)
        self.assertEqual(max(it.depth for it in picky_der.elements(deep)), 199)
        self.assertEqual(picky_der.front(deep + b"\xff").offset, 0)

    def test_writing(self) -> None:
        """A certificate that is written from its elements is the same bytes."""
        for it in CASES[:20]:
            self.assertEqual(self.again(it.der), it.der)
        self.assertEqual(picky_der.encode_set([b"\x02\x01\x02", b"\x02\x01\x01"]).hex(), "3106020101020102")
        self.assertEqual(picky_der.encode_set([]), b"\x31\x00")
        self.assertRaises(DecodeError, picky_der.encode_set, [b"\x02\x01\x02", b"\x02\x01"])
        writer = picky_der.Writer()
        with writer.put(0x05).set_of():
            for size in range(300, 0, -1):
                writer.put(0x04, bytes(size))
        members = [bytes(it.content) for it in picky_der.elements(writer.bytes()[2:]) if it.depth == 1]
        self.assertEqual(members, [bytes(size) for size in range(1, 301)])
        self.assertRaises(DecodeError, picky_der.encode, 0x31, b"\x02\x01\x02", b"\x02\x01\x01")
        self.assertRaises(ValueError, picky_der.encode, 256)

    def test_data(self) -> None:
        """Data is bytes of any object that has some, and nothing else."""

        class Longer(bytes):
            """Says that it is longer than it is."""

            def __len__(self) -> int:
                return 1 << 20

        der = CASES[0].der
        apart = bytes(it for byte in der for it in (byte, 0))
        for same in (bytearray(der), memoryview(der), memoryview(apart)[::2], Longer(der), array.array("B", der), memoryview(der[::-1])[::-1]):
            picky_der.check("certificate", same)  # type: ignore[arg-type]
            self.assertEqual(sum(it.depth == 0 for it in picky_der.elements(same)), 1)  # type: ignore[arg-type]
        for wrong in (5, None, "text", [48, 0], object()):
            self.assertRaises(TypeError, picky_der.check, "certificate", wrong)
            self.assertRaises(TypeError, picky_der.Writer().put, 4, wrong)
        for empty in (b"", bytearray(), memoryview(b"")):
            self.assertEqual((self.refused("certificate", empty).position, picky_der.is_der(empty), list(picky_der.elements(empty))), (0, True, []))

    def test_changed_meanwhile(self) -> None:
        """Elements stay what they were when the data is changed, or becomes shorter."""
        data = bytearray.fromhex("30060201050201" + "06")
        listed = picky_der.elements(data)
        next(listed)
        del data[2:]
        self.assertEqual([bytes(it.content) for it in listed], [b"\x05", b"\x06"])

    def test_one_writer(self) -> None:
        """Threads may write by one writer, each element as a whole."""
        writer = picky_der.Writer()

        def run(number: int) -> None:
            for size in range(200):
                writer.put(0x04, bytes([number]) * size)

        threads = [threading.Thread(target=run, args=(it,)) for it in range(4)]
        for it in threads:
            it.start()
        for it in threads:
            it.join()
        contents = [bytes(it.content) for it in picky_der.elements(writer.bytes())]
        self.assertEqual(sorted(contents), sorted(bytes([number]) * size for number in range(4) for size in range(200)))

    def test_copies_of_errors(self) -> None:
        """An error is the same after it was sent to another process."""
        for der in (bytes.fromhex("30810100"), bytes.fromhex("30053003020100")):
            error = self.refused("certificate", der)
            again = pickle.loads(pickle.dumps(error))
            self.assertEqual((again.code, again.position, again.rule, str(again)), (error.code, error.position, error.rule, str(error)))
            self.assertEqual(again.path, error.path)

    def again(self, der: bytes) -> bytes:
        """The bytes, written from their elements."""
        writer = picky_der.Writer()

        def write(content: bytes) -> None:
            for it in picky_der.elements(content):
                if it.depth == 0 and it.is_constructed:
                    with writer.within(it.tag):
                        write(bytes(it.content))
                elif it.depth == 0:
                    writer.put(it.tag, it.content)

        write(der)
        return writer.bytes()


@unittest.skipUnless("NO_MEMORY" in os.environ, "there is memory")
class WithoutMemory(unittest.TestCase):
    """A failed allocation says nothing of the bytes."""

    def test_errors(self) -> None:
        """It is a MemoryError. What takes no memory works."""
        der = CASES[0].der
        self.assertRaises(MemoryError, picky_der.check, "certificate", der)
        self.assertRaises(MemoryError, picky_der.is_der, der)
        self.assertRaises(MemoryError, picky_der.to_json, "certificate", der)
        self.assertRaises(MemoryError, picky_der.from_json, "certificate", '{"a": 1}')
        self.assertRaises(MemoryError, picky_der.from_ber, "certificate", der)
        self.assertEqual(picky_der.front(der).offset, 0)
        self.assertGreater(len(list(picky_der.elements(der))), 10)
        self.assertEqual(picky_der.encode(0x02, b"\x05"), b"\x02\x01\x05")


if __name__ == "__main__":
    unittest.main()
