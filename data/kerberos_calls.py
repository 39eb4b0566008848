"""Messages between a client and a server by calls of MIT's libkrb5, printed as lines `NAME HEX`. It runs where a realm has tickets.

    kerberos_calls.py KEYTAB HOST
"""
import ctypes
import sys

_USE_SUBKEY, _ETYPES, _MUTUAL = 0x1, 0x2, 0x20000000
_DO_TIME, _DO_SEQUENCE = 0x1, 0x4
_INET = 2
_P = ctypes.c_void_p
byref = ctypes.byref


class Data(ctypes.Structure):
    """krb5_data."""

    _fields_ = [("magic", ctypes.c_int32), ("length", ctypes.c_uint), ("data", ctypes.POINTER(ctypes.c_char))]

    def bytes(self):
        """The bytes."""
        return self.data[: self.length]


class Address(ctypes.Structure):
    """krb5_address."""

    _fields_ = [("magic", ctypes.c_int32), ("addrtype", ctypes.c_int32), ("length", ctypes.c_uint), ("contents", ctypes.c_char_p)]


def given(text):
    """Bytes as krb5_data, with the memory that it refers to."""
    room = ctypes.create_string_buffer(text, len(text))
    return Data(0, len(text), ctypes.cast(room, ctypes.POINTER(ctypes.c_char))), room


class Library:
    """libkrb5 with its context."""

    def __init__(self):
        self.library = ctypes.CDLL("libkrb5.so.3")
        self.context = _P()
        self.call("init_context", byref(self.context), has_context=False)

    def call(self, name, *arguments, has_context=True):
        """A call that returns 0 if it is done."""
        first = (self.context,) if has_context else ()
        code = getattr(self.library, f"krb5_{name}")(*first, *arguments)
        if code:
            raise RuntimeError(f"krb5_{name}: {code}")

    def connection(self):
        """An authentication context with two addresses, a time and numbers of messages."""
        found = _P()
        self.call("auth_con_init", byref(found))
        self.call("auth_con_setflags", found, _DO_TIME | _DO_SEQUENCE)
        here, there = (Address(0, _INET, 4, bytes([127, 0, 0, it])) for it in (1, 2))
        self.call("auth_con_setaddrs", found, byref(here), byref(there))
        self.call("auth_con_setrcache", found, None)
        return found


def say(name, data):
    """Prints a message."""
    print(name, data.bytes().hex())


def main():
    """A request and its reply, and what is sent after them."""
    keytab_path, host = sys.argv[1:]
    it, out = Library(), Data
    tickets, keytab, flags, reply_part = _P(), _P(), ctypes.c_int32(), _P()
    it.call("cc_default", byref(tickets))
    it.call("kt_resolve", f"FILE:{keytab_path}".encode(), byref(keytab))
    client, server = it.connection(), it.connection()
    request, reply = out(), out()
    body, _room = given(b"what the application says")
    it.call("mk_req", byref(client), _USE_SUBKEY | _ETYPES | _MUTUAL, b"host", host.encode(), byref(body), tickets, byref(request))
    say("ap-req", request)
    it.call("rd_req", byref(server), byref(request), None, keytab, byref(flags), None)
    it.call("mk_rep", server, byref(reply))
    say("ap-rep", reply)
    it.call("rd_rep", client, byref(reply), byref(reply_part))
    for name in ("safe", "priv"):
        message = out()
        it.call(f"mk_{name}", client, byref(body), byref(message), None)
        say(f"krb-{name}", message)
    me, forwarded = _P(), out()
    it.call("cc_get_principal", tickets, byref(me))
    it.call("fwd_tgt_creds", client, host.encode(), me, None, tickets, 1, byref(forwarded))
    say("krb-cred", forwarded)


main()
