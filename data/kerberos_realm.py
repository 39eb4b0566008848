"""A realm of Kerberos on the loopback, of MIT's or Heimdal's programs, and a proxy that keeps what is said to its KDC.

The programs are those that are installed, or those below a folder into which the packages of Debian were unpacked.
"""
import os
import shutil
import socket
import struct
import subprocess
import threading
import time

REALM = "EXAMPLE.ORG"
USER, PASSWORD = "alice", "a password of twenty letters"
SERVICE = "host/server.example.org"
OTHER_SERVICE = "HTTP/www.example.org"
_LIBRARIES = "usr/lib/x86_64-linux-gnu"


def free_port():
    """A port of the loopback that nobody listens on."""
    with socket.socket() as it:
        it.bind(("127.0.0.1", 0))
        return it.getsockname()[1]


class Proxy:
    """Hands on what clients say to a KDC over TCP, and keeps each message, of which four bytes before it are the length."""

    def __init__(self, kdc_port):
        self.kdc_port, self.kept = kdc_port, []
        self.listener = socket.create_server(("127.0.0.1", 0))
        self.port = self.listener.getsockname()[1]
        threading.Thread(target=self.serve, daemon=True).start()

    def serve(self):
        """Serves one client after another."""
        while True:
            try:
                client, _ = self.listener.accept()
            except OSError:
                return
            with client, socket.create_connection(("127.0.0.1", self.kdc_port)) as kdc:
                client.settimeout(5)
                kdc.settimeout(5)
                try:
                    self.exchange(client, kdc)
                except (OSError, EOFError):
                    pass

    def exchange(self, client, kdc):
        """Requests and replies until the client is done."""
        while True:
            for source, target in ((client, kdc), (kdc, client)):
                message = received(source)
                self.kept.append(message)
                target.sendall(struct.pack(">I", len(message)) + message)

    def close(self):
        """Listens no more."""
        self.listener.close()


def received(source):
    """One message of a connection."""
    (length,) = struct.unpack(">I", exactly(source, 4))
    return exactly(source, length)


def exactly(source, count):
    """So many bytes of a connection."""
    found = b""
    while len(found) < count:
        piece = source.recv(count - len(found))
        if not piece:
            raise EOFError
        found += piece
    return found


class Realm:
    """A realm with a user and a service. `root` is the folder of the unpacked packages, or `/`."""

    def __init__(self, folder, root):
        self.folder, self.root = folder, root
        self.port = free_port()
        self.kdc = None
        os.makedirs(folder, exist_ok=True)
        self.proxy = Proxy(self.port)
        self.environment = {
            "PATH": os.environ["PATH"],
            "KRB5_CONFIG": self.file("krb5.conf"),
            "KRB5_KDC_PROFILE": self.file("kdc.conf"),
            "KRB5CCNAME": "FILE:" + self.file("tickets"),
            "LD_LIBRARY_PATH": self.library(""),
        }
        self.create()

    def file(self, name):
        """A file of the realm."""
        return os.path.join(self.folder, name)

    def library(self, name):
        """A library of the packages."""
        return os.path.join(self.root, _LIBRARIES, name)

    def write(self, name, text):
        """Writes a file of the realm."""
        with open(self.file(name), "w", encoding="utf-8") as it:
            it.write(text)

    def run(self, program, *words, given="", may_fail=False):
        """Runs a program of the packages and returns what it prints."""
        path = os.path.join(self.root, program)
        done = subprocess.run([path, *words], input=given, env=self.environment, text=True, capture_output=True, timeout=30, check=False)
        if done.returncode and not may_fail:
            raise RuntimeError(f"{program} {' '.join(words)}: {done.stdout}{done.stderr}")
        return done.stdout

    def start(self, program, *words):
        """Starts the KDC and waits until it listens."""
        path = os.path.join(self.root, program)
        log = open(self.file("kdc.log"), "w", encoding="utf-8")
        self.kdc = subprocess.Popen([path, *words], env=self.environment, stdin=subprocess.DEVNULL, stdout=log, stderr=log)
        for _ in range(100):
            try:
                socket.create_connection(("127.0.0.1", self.port), timeout=1).close()
                return
            except OSError:
                time.sleep(0.1)
        raise RuntimeError(f"no KDC: {open(self.file('kdc.log'), encoding='utf-8').read()}")

    def stop(self):
        """Ends the KDC and the proxy, and removes the realm."""
        if self.kdc:
            self.kdc.terminate()
            self.kdc.wait()
        self.proxy.close()
        shutil.rmtree(self.folder)

    def taken(self):
        """The messages since the last call."""
        found, self.proxy.kept = self.proxy.kept, []
        return found


class MitRealm(Realm):
    """A realm of MIT's programs: krb5-kdc, krb5-admin-server and krb5-user."""

    writer = "mit"
    fully = ("-r", "2d", "-p", "-a")

    def create(self):
        self.write(
            "krb5.conf",
            f"""[libdefaults]
 default_realm = {REALM}
 dns_lookup_kdc = false
 dns_lookup_realm = false
 dns_canonicalize_hostname = false
 rdns = false
 udp_preference_limit = 1
 allow_weak_crypto = true
 forwardable = true
[realms]
 {REALM} = {{
  kdc = 127.0.0.1:{self.proxy.port}
 }}
[plugins]
 localauth = {{
  disable = winbind
 }}
[dbmodules]
 db_module_dir = {self.library("krb5/plugins/kdb")}
""",
        )
        self.write(
            "kdc.conf",
            f"""[kdcdefaults]
 kdc_listen = 127.0.0.1:{self.port}
 kdc_tcp_listen = 127.0.0.1:{self.port}
[realms]
 {REALM} = {{
  database_name = {self.file("principal")}
  key_stash_file = {self.file("stash")}
  acl_file = {self.file("acl")}
  max_life = 10h
  max_renewable_life = 7d
  supported_enctypes = aes256-cts-hmac-sha1-96:normal aes128-cts-hmac-sha1-96:normal aes256-cts-hmac-sha384-192:normal
 }}
[dbmodules]
 db_module_dir = {self.library("krb5/plugins/kdb")}
""",
        )
        self.run("usr/sbin/kdb5_util", "create", "-s", "-P", "a master password")
        for query in (
            f"addprinc -pw \"{PASSWORD}\" +requires_preauth {USER}",
            f"addprinc -pw \"{PASSWORD}\" bob",
            f"addprinc -randkey {SERVICE}",
            f"addprinc -randkey {OTHER_SERVICE}",
            f"ktadd -k {self.file('keytab')} -norandkey {SERVICE}",
            f"ktadd -k {self.file('keytab')} -norandkey {OTHER_SERVICE}",
            f"ktadd -k {self.file('keytab')} -norandkey krbtgt/{REALM}",
        ):
            self.run("usr/sbin/kadmin.local", "-q", query)
        self.start("usr/sbin/krb5kdc", "-n")

    def get_ticket(self, user=USER, *words, may_fail=False):
        """Gets a ticket for tickets."""
        self.run("usr/bin/kinit", *words, user, given=PASSWORD + "\n", may_fail=may_fail)

    def get_service_ticket(self, service=SERVICE, *words, may_fail=False):
        """Gets a ticket for a service."""
        self.run("usr/bin/kvno", *words, service, may_fail=may_fail)


class HeimdalRealm(Realm):
    """A realm of Heimdal's programs: heimdal-kdc and heimdal-clients."""

    writer = "heimdal"
    fully = ("--renewable-life=2d", "--proxiable", "--extra-addresses=127.0.0.1")

    def create(self):
        self.write(
            "krb5.conf",
            f"""[libdefaults]
 default_realm = {REALM}
 dns_lookup_kdc = false
 dns_canonicalize_hostname = false
 allow_weak_crypto = true
 forwardable = true
[realms]
 {REALM} = {{
  kdc = tcp/127.0.0.1:{self.proxy.port}
 }}
[kdc]
 database = {{
  dbname = {self.file("heimdal")}
  realm = {REALM}
  mkey_file = {self.file("m-key")}
  acl_file = {self.file("acl")}
  log_file = {self.file("log")}
 }}
[hdb]
 db-dir = {self.folder}
[logging]
 kdc = FILE:{self.file("kdc-messages")}
""",
        )
        self.run("usr/sbin/kstash", f"--key-file={self.file('m-key')}", "--random-key")
        admin = ("usr/bin/kadmin.heimdal", "-l")
        self.run(*admin, "init", "--realm-max-ticket-life=1day", "--realm-max-renewable-life=7day", REALM)
        for user in (USER, "bob"):
            self.run(*admin, "add", f"--password={PASSWORD}", "--use-defaults", user)
        for service in (SERVICE, OTHER_SERVICE):
            self.run(*admin, "add", "--random-key", "--use-defaults", service)
        self.run(*admin, "modify", "--attributes=requires-pre-auth", USER)
        for it in (SERVICE, OTHER_SERVICE, f"krbtgt/{REALM}"):
            self.run(*admin, "ext_keytab", "-k", self.file("keytab"), it)
        self.start("usr/lib/heimdal-servers/kdc", f"--ports={self.port}/tcp", "--addresses=127.0.0.1")

    def get_ticket(self, user=USER, *words, may_fail=False):
        """Gets a ticket for tickets."""
        self.write("password", PASSWORD + "\n")
        self.run("usr/bin/kinit.heimdal", f"--password-file={self.file('password')}", *words, user, may_fail=may_fail)

    def get_service_ticket(self, service=SERVICE, *words, may_fail=False):
        """Gets a ticket for a service."""
        self.run("usr/bin/kgetcred", *words, service, may_fail=may_fail)
