package pickyder

import (
	"bytes"
	"crypto/x509"
	"encoding/binary"
	"errors"
	"os"
	"strings"
	"sync"
	"testing"
)

const (
	certificate = iota
	read
	refused
)

type input struct {
	verdict, offset int
	der             []byte
}

// inputs are the cases that tools/bindings writes, each with what `der read` says of it.
func inputs(t testing.TB) (all []input) {
	data, err := os.ReadFile(os.Getenv("CASES"))
	if err != nil {
		t.Fatal(err)
	}
	number := func(at int) int { return int(binary.BigEndian.Uint32(data[at:])) }
	for at := 4; at < len(data); {
		length := number(at + 8)
		all = append(all, input{number(at), number(at + 4), data[at+12 : at+12+length]})
		at += 12 + length
	}
	return all
}

// offsetOf is where `der read` says that bytes were refused: at the broken rule, at bytes after the first element, or at the last element
// before the position.
func offsetOf(elements []Element, rule, why *Error, length int) (offset int) {
	if rule != nil {
		return rule.Position
	}
	if len(elements) > 0 && len(elements[0].Encoding) <= why.Position && why.Position < length {
		return why.Position
	}
	for _, it := range elements {
		if it.Offset < why.Position {
			offset = it.Offset
		}
	}
	return offset
}

func check(t *testing.T, it input) {
	err := Check(Certificate, it.der)
	elements, broken := Elements(it.der)
	var why, rule *Error
	errors.As(broken, &rule)
	if err != nil && !errors.As(err, &why) {
		t.Error("no error of this package", err)
	}
	accepted := why == nil || why.Code > 100
	if it.verdict <= refused && accepted != (it.verdict != refused) {
		t.Error("the verdict of der read", it.verdict, err)
	}
	if err == nil && broken != nil || it.verdict == certificate && err != nil {
		t.Error("what is accepted is in DER", broken)
	}
	if it.verdict == refused && offsetOf(elements, rule, why, len(it.der)) != it.offset {
		t.Error("the offset of der read", rule, why, it.offset)
	}
	for _, element := range elements {
		if front, err := Front(it.der[element.Offset:]); err != nil || !bytes.Equal(front.Content, element.Content) {
			t.Error("the same element at the front", err)
		}
	}
}

func TestCases(t *testing.T) {
	all := inputs(t)
	var threads sync.WaitGroup
	for i := 0; i < 4; i++ {
		threads.Add(1)
		go func() {
			defer threads.Done()
			for _, it := range all {
				check(t, it)
			}
		}()
	}
	threads.Wait()
}

func TestParts(t *testing.T) {
	der := inputs(t)[0].der
	for cut := 0; cut < len(der); cut += 31 {
		var why *Error
		if !errors.As(Check(Certificate, der[:cut]), &why) || why.Code != Truncated || why.Position > cut {
			t.Error("a part", cut, why)
		}
	}
	var why *Error
	if !errors.As(Check(Certificate, append(append([]byte{}, der...), 0)), &why) || why.Code != Invalid || why.Position != len(der) {
		t.Error("a byte more", why)
	}
	if err := Check(0, der); err == nil || Certificate.String() != "certificate" {
		t.Error("an unknown type")
	}
}

func TestPaths(t *testing.T) {
	der := inputs(t)[0].der
	elements, _ := Elements(der)
	for _, it := range elements {
		if it.Tag == 0x06 {
			it.Encoding[0] = 0x04
			break
		}
	}
	var why *Error
	if !errors.As(Check(Certificate, der), &why) || why.Path != "tbsCertificate.signature.algorithm" || !strings.Contains(why.Error(), ", tbsC") {
		t.Error("a path by names", why)
	}
	padded := []byte{0x6b, 8, 0x30, 6, 0xa0, 4, 2, 2, 0, 5}
	if !errors.As(Check(Krb, padded), &why) || why.Path != "0.0.0.0" {
		t.Error("a path by numbers", why)
	}
}

func TestJSON(t *testing.T) {
	der := inputs(t)[0].der
	json, err := ToJSON(Certificate, der)
	if err != nil || !strings.HasPrefix(json, `{"signature":{"length":`) || strings.Contains(json, "\n") {
		t.Error("a certificate", json, err)
	}
	var why *Error
	if _, err := ToJSON(Certificate, der[:9]); !errors.As(err, &why) || why.Code != Truncated {
		t.Error("a part", err)
	}
	reply := []byte("\x6f\x1b\x30\x19\xa0\x03\x02\x01\x05\xa1\x03\x02\x01\x0f\xa2\x0d\x30\x0b\xa0\x03\x02\x01\x11\xa2\x04\x04\x02\x01\x02")
	if _, err := ToJSON(Krb, reply); err != ErrNoTable {
		t.Error("a type without a table", err)
	}
	if again, err := FromJSON(Certificate, json); err != nil || !bytes.Equal(again, der) {
		t.Error("a certificate from its JSON", err)
	}
	var refusal *JSONError
	if _, err := FromJSON(Certificate, strings.Replace(json, `"issuer"`, `"other"`, 1)); !errors.As(err, &refusal) || !strings.Contains(refusal.Reason, "tbsCertificate") {
		t.Error("JSON of no certificate", err)
	}
	for _, wrong := range []string{"", "{", "{}", "[]", "null", "\xff"} {
		if _, err := FromJSON(Certificate, wrong); !errors.As(err, &refusal) {
			t.Error("JSON of no certificate", wrong, err)
		}
	}
	if _, err := FromJSON(Krb, "{}"); err != ErrNoTable {
		t.Error("a type without a table", err)
	}
}

func TestBER(t *testing.T) {
	der := inputs(t)[0].der
	header := 2
	if der[1] >= 0x80 {
		header += int(der[1] & 0x7F)
	}
	form := append(append([]byte{0x30, 0x80}, der[header:]...), 0, 0)
	if Check(Certificate, form) == nil {
		t.Error("BER is DER")
	}
	if again, err := FromBER(Certificate, form); err != nil || !bytes.Equal(again, der) {
		t.Error("a certificate from its BER", err)
	}
	var refusal *BERError
	for _, wrong := range [][]byte{form[:len(form)-2], {}, {0x30, 0}} {
		if _, err := FromBER(Certificate, wrong); !errors.As(err, &refusal) || refusal.Reason == "" {
			t.Error("BER of no certificate", wrong, err)
		}
	}
	if _, err := FromBER(Krb, form); err != ErrNoTable {
		t.Error("a type without a table", err)
	}
}

func writeAgain(t *testing.T, w *Writer, der []byte) error {
	elements, err := Elements(der)
	for _, it := range elements {
		content := it.Content
		if err == nil && it.Depth == 0 && it.Constructed {
			err = w.Within(it.Tag, func() error { return writeAgain(t, w, content) })
		} else if err == nil && it.Depth == 0 {
			err = w.Put(it.Tag, content)
		}
	}
	return err
}

func writeNumbers(w *Writer, numbers ...byte) (err error) {
	for _, number := range numbers {
		if err == nil {
			err = w.Put(2, []byte{number})
		}
	}
	return err
}

func TestWriting(t *testing.T) {
	for _, it := range inputs(t) {
		var w Writer
		if it.verdict != certificate {
			continue
		}
		if err := writeAgain(t, &w, it.der); err != nil || !bytes.Equal(w.Bytes(), it.der) {
			t.Error("a certificate that is written again", err)
		}
	}
	var w Writer
	err := w.Within(0x31, func() error {
		if err := w.Put(2, []byte{2}); err != nil {
			return err
		}
		return w.Put(2, []byte{1})
	})
	if err == nil || len(w.Bytes()) != 6 {
		t.Error("what was written stays", w.Bytes())
	}
	if err := w.SetOf(func() error { return nil }); err != nil || !bytes.Equal(w.Bytes()[6:], []byte{0x31, 0}) {
		t.Error("an empty set", err)
	}
	var sorted Writer
	for _, number := range []byte{2, 1} {
		number := number
		if err := sorted.SetOf(func() error { return writeNumbers(&sorted, number, 1, 2) }); err != nil {
			t.Error("a set in order", err)
		}
	}
	if !bytes.Equal(sorted.Bytes(), []byte{0x31, 9, 2, 1, 1, 2, 1, 2, 2, 1, 2, 0x31, 9, 2, 1, 1, 2, 1, 1, 2, 1, 2}) {
		t.Error("the order of sets", sorted.Bytes())
	}
	if err == nil || !strings.Contains(err.Error(), "X.690, 10.3, 11.6") {
		t.Error("a set out of order", err)
	}
}

func TestSmallOnes(t *testing.T) {
	for _, empty := range [][]byte{nil, {}, make([]byte, 8)[4:4]} {
		var why *Error
		if !errors.As(Check(Certificate, empty), &why) || why.Code != Truncated || why.Position != 0 {
			t.Error("no bytes", why)
		}
		if elements, err := Elements(empty); len(elements) != 0 || err != nil {
			t.Error("no elements", elements, err)
		}
		var w Writer
		if err := w.Put(4, empty); err != nil || !bytes.Equal(w.Bytes(), []byte{4, 0}) {
			t.Error("an empty content", err, w.Bytes())
		}
		if _, err := Front(empty); err == nil {
			t.Error("no element at the front")
		}
	}
}

func TestOwnBytes(t *testing.T) {
	var w Writer
	want := []byte{}
	for i := 0; i < 12; i++ {
		part := w.Bytes()[len(w.Bytes())/2:]
		want = append(append(want, 4, byte(len(part))), part...)
		if len(part) > 127 {
			break
		}
		if err := w.Put(4, part); err != nil || !bytes.Equal(w.Bytes(), want) {
			t.Fatal("a part of what was written", err)
		}
	}
}

func TestNoMemory(t *testing.T) {
	if os.Getenv("NO_MEMORY") == "" {
		t.Skip("there is memory")
	}
	der := inputs(t)[0].der
	if err := Check(Certificate, der); !errors.Is(err, ErrNoMemory) {
		t.Error("a check without memory", err)
	}
	if elements, err := Elements(der); !errors.Is(err, ErrNoMemory) || len(elements) != 0 {
		t.Error("elements without memory", err)
	}
	if first, err := Front(der); err != nil || first.Offset != 0 {
		t.Error("the front takes no memory", err)
	}
}

func bench(b *testing.B, call func(der []byte)) {
	var certificates [][]byte
	for _, it := range inputs(b) {
		if it.verdict == certificate {
			certificates = append(certificates, it.der)
		}
	}
	b.ResetTimer()
	for i := 0; i < b.N; i++ {
		call(certificates[i%len(certificates)])
	}
}

func BenchmarkCheck(b *testing.B) {
	bench(b, func(der []byte) { _ = Check(Certificate, der) })
}

func BenchmarkParseCertificate(b *testing.B) {
	bench(b, func(der []byte) { _, _ = x509.ParseCertificate(der) })
}
