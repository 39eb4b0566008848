"""What pages say in words of their commands, for tools/commands. A command is named by its page and its text there."""
import shlex

# The pages for users outside of the repository, whose commands run in an empty folder.
OWN = ("docs/USE.md", "docs/YOUR_TYPES.md")

# The pages whose sentences name commands that were run, and don't ask for them.
NAMED = ("docs/ARCHITECTURE.md", "docs/DECISIONS.md", "docs/DIFFERENCES.md", "docs/TESTED.md", "docs/X509.md")

# The folders in which `rt` runs, where a sentence doesn't name one.
FOLDERS = {"README.md": "crates/ticket", "CONTRIBUTING.md": "crates/der_path", "docs/YOUR_TYPES.md": "crates/mine"}

# Why commands are run with --all alone, by what is in them. The first line that fits counts.
COSTLY = {
    r"^\./run-tests --unproved": "tries all crates, in five minutes",
    r"^\./run-tests|^rt ci": "proves everything, in hours",
    r"^tools/wrong-bodies (?!--apply)|^rt plant": "checks a crate for each wrong body",
    r"^\./run-der(?!.*--unproved)|run-der-tool|\bder (show|read|cms|certificate|write) ": "proves a program",
    r"\brt (check|run|tidy)|^tools/build-archive|--built|^tools/show-rows crates": "proves crates, or needs their programs",
    r"^tools/(ber-readers|ber-reports|named-paths|der-cases|progress|signatures|requests)": "needs programs that are proved",
    r"^make|tools/(bindings|page)\b|\$\(pkg-config|\bcargo |^go ": "needs the library that is proved",
    r"^bench/(?!table)": "proves or builds programs, and measures them for minutes",
    r"^tools/der_asn1/(corpus|golden)": "fetches packages, or leaves crates of half an hour of proofs",
    r"^tools/x509-inputs$": "makes other keys",
}

# What is run in place of a form or of what changes the machine, and where a page says in words what comes between two commands.
CERTIFICATE = "data/pkix/certificate-one.der"
VALUE = "python3 -c 'import json; print(json.dumps(json.load(open(\"read.json\"))[\"value\"]))' > value.json"
READ = f"./run-der --unproved read --json certificate {CERTIFICATE} > read.json"
TABLE = "tools/der_asn1/der_asn1 --schemas crates/tables/src/mine.rt --crate Mine=mine Mine.asn1"
AS_RUN = {
    ("README.md", "./run-der --unproved read --json certificate FILE"):
        f"set -e; {READ}; {VALUE}; ./run-der --unproved write certificate value.json | cmp - {CERTIFICATE}",
    ("CONTRIBUTING.md", "rt check --only MODULE::FUNCTION"): "rt check --only numbers::path_at",
    ("CONTRIBUTING.md", "rt plant --only FUNCTION"): "rt plant --only path_at",
    ("CONTRIBUTING.md", "tools/wrong-bodies MODULE.FUNCTION"): "tools/wrong-bodies der_path numbers.path_at",
    ("docs/ASN1.md", TABLE): f"sed -i 's/IMPORTS.*//; s/Name/NULL/g' Mine.asn1; tools/der_asn1/der_asn1 --out crates/mine Mine.asn1; {TABLE}",
    ("docs/ASN1.md", "tools/der_asn1/corpus --fetch --together FOLDER"): 'tools/der_asn1/corpus --fetch --together "$HOME/modules"',
    ("docs/GATE.md", "tools/wrong-bodies [--functions] [CRATE..] [MODULE.FUNCTION..]"): "tools/wrong-bodies --functions der_path numbers.path_at",
    ("docs/GATE.md", "rt fmt"): "cd crates/der_path && rt fmt",
    ("docs/GATE.md", "tools/x509-inputs"): "tools/x509-inputs --built",
    ("docs/GATE.md", "tools/show-rows"): "tools/show-rows crates/der/out/der show",
    ("docs/GATE.md", "tools/build-archive"): "tools/build-archive der_c",
    ("docs/MESSAGES.md", "tools/copy-crates REPOSITORY --with der_cms"): "mkdir own; tools/copy-crates own --with der_cms",
    ("docs/USE.md", "tools/copy-crates"): '"$LIBRARY"/tools/copy-crates . --with der_ber',
    ("docs/USE.md", "rt check"): 'cd "$LIBRARY"/crates/picky_asn1_der && rt check',
    ("bindings/README.md", "make install PREFIX=/usr/local DESTDIR="): 'make install PREFIX=/usr/local DESTDIR="$HOME/root"',
    ("bindings/python/README.md", "make -C .. install PREFIX=/usr/local"): 'make -C .. install PREFIX=/usr/local DESTDIR="$HOME/root"',
    ("bindings/rust/README.md", "export PICKY_DER_LIB=/usr/local/lib"): 'export PICKY_DER_LIB="$HOME/root/usr/local/lib"',
    ("bindings/rust/README.md", "cargo test"): 'CASES="$PWD/../build/cases" cargo test',
}

# What a comment after a command says that it prints.
SAID = {
    ("README.md", r"printf 'len 290\nread u8 02010705\n' | ./run-der-tool"): ("820122", "ok 3 020107"),
    ("docs/TOOL.md", r"printf 'len 290\nread u8 02010705\n' | ./run-der-tool"): ("820122", "ok 3 020107"),
}



def file_with(name: str, *lines: str) -> str:
    """A command that writes these lines to a file."""
    return f"printf '%s\\n' {' '.join(map(shlex.quote, lines))} > {name}"


def compiled(*lines: str) -> str:
    """Commands that compile a module with these lines."""
    return f"{file_with('m.asn1', 'M DEFINITIONS ::= BEGIN', *lines, 'END')}; tools/der_asn1/der_asn1 --out \"$HOME/m\" m.asn1 2>&1"


# The lines that a page shows without a command, by their beginning, and what prints them. The status isn't looked at.
DERIVES = "#[derive(Debug, Drop, PartialEq, Eq)]"
PRICE = "//! A price.", "mod derived;", "", "/// It.", DERIVES, "pub struct Price {", "    /// 1.", "    pub amount: Option<u8>,", "    /// 2."
TICKET = "612b3029a003020105a1031b0141a20e300ca003020101a10530031b016ba30d300ba003020112a204040201ff"
SHOWN = {
    ("docs/ASN1.md", "m.asn1:2:8"): compiled("T ::= [A] NULL"),
    ("docs/ASN1.md", "m.asn1:5:44"): compiled("", "", "", "T ::= SEQUENCE { a INTEGER (0..10) DEFAULT 99 }"),
    ("docs/ASN1.md", "m.asn1:6:18"): compiled("", "", "V ::= W", "W ::= SEQUENCE { t T }", "T ::= SEQUENCE { b UTCTime (SIZE (13)) }"),
    ("docs/ASN1.md", "BindMessage = SEQUENCE"): 'tools/der_asn1/der_asn1 --out "$HOME/bind" tools/der_asn1/tests/golden/bind.asn1;'
        ' cat "$HOME/bind/specs/Notation.antt"',
    ("docs/TOOL.md", "indefinite.der:"): r"printf '\060\200\000\000' > indefinite.der; der read indefinite.der",
    ("docs/TOOL.md", "a.crl:"): r"cp data/pkix/list.der a.crl; printf '\004' | dd of=a.crl bs=1 seek=13 conv=notrunc; der read crl a.crl",
    ("docs/TOOL.md", '{"block":null,"file":"k"'): f"python3 -c 'open(\"k\", \"wb\").write(bytes.fromhex(\"{TICKET}\"))'; der read --json k",
    ("docs/TOOL.md", "data/ber/signed.ber: BER"): "der read --ber cms data/ber/signed.ber",
    ("docs/TOOL.md", "data/ber/signed.ber: cms"): "der read --ber cms data/ber/signed.ber",
    ("docs/TOOL.md", "certificate.pem, block 1:"): "awk '/^#/ { next } /BEGIN/ { n++ } n == 10' data/certificates/all.pem > certificate.pem;"
        " der certificate certificate.pem",
    ("docs/YOUR_TYPES.md", "src/price.rt:10:1"): f"cd crates/mine; {file_with('src/price.rt', *PRICE, '    pub currency: u8,', '}')};"
        ' "$LIBRARY"/tools/der_asn1/der_asn1 derive src/price.rt 2>&1; rm src/price.rt',
}

# What is done before the commands of a page: the files that it names are made.
BEFORE = {
    "docs/ASN1.md": file_with("Mine.asn1", "Mine DEFINITIONS ::= BEGIN IMPORTS Name FROM PKIX1Explicit88;", "Pair ::= SEQUENCE { one Name, two Name }", "END"),
    "docs/LANGUAGES.md": f"cp {CERTIFICATE} certificate.der",
    "docs/TOOL.md": f"cp {CERTIFICATE} message.der",
}
