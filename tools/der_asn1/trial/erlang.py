"""What Erlang's compiler of ASN.1 makes of modules: values of their types, and which encodings it reads."""
import re
import shutil
import subprocess
import tempfile
from collections.abc import Sequence
from pathlib import Path

# what Erlang's compiler has no form for, and what is written in its place, which says less
_SIMPLER = (("GeneralString (IA5String)", "GeneralString"),)

# numbers in place of those of Erlang's module `rand`, the same ones in each run
_NUMBERS = r"""-module(rand).
-export([uniform/1, begin_at/1]).

begin_at(Seed) ->
    persistent_term:put(rand, {Seed, atomics:new(1, [])}).

uniform(N) ->
    {Seed, Count} = persistent_term:get(rand),
    At = atomics:add_get(Count, 1, 1),
    (erlang:phash2({high, Seed, At}, 1 bsl 32) bsl 32 + erlang:phash2({low, Seed, At}, 1 bsl 32)) rem N + 1.
"""

_PROGRAM = r"""-module(oracle).
-export([values/1, read/0]).

values([File]) ->
    true = code:unstick_mod(rand),
    {module, rand} = code:load_abs("numbers/rand"),
    {ok, Wanted} = file:consult(File),
    [value(M, T, Seed) || {M, T, Count} <- Wanted, Seed <- lists:seq(1, Count)],
    ok.

% a value of a type that contains itself may have no end: the memory of a process has one
value(M, T, Seed) ->
    rand:begin_at(Seed),
    {Pid, Ref} = spawn_monitor(fun() -> made(M, T) end),
    receive {'DOWN', Ref, _, _, _} -> ok after 20000 -> exit(Pid, kill) end.

made(M, T) ->
    case catch M:encode(T, element(2, asn1ct:value(M, T))) of
        {ok, B} -> io:format("~s ~s ~s~n", [M, T, binary:encode_hex(B)]);
        _ -> ok
    end.

read() ->
    case io:get_line("") of
        eof -> ok;
        Line ->
            [M, T, Hex] = string:lexemes(Line, " \n"),
            io:format("~s~n", [outcome(list_to_atom(M), list_to_atom(T), binary:decode_hex(list_to_binary(Hex)))]),
            read()
    end.

outcome(M, T, B) ->
    case catch M:decode(T, B) of
        {ok, V} -> written(catch M:encode(T, V), B);
        _ -> "refused"
    end.

written({ok, B}, B) -> "same";
written({ok, B}, _) -> binary_to_list(binary:encode_hex(B));
written(_, _) -> "unwritable".
"""


class Erlang:
    """Erlang's readers and writers of some modules, in a folder of its own, which `with` removes at the end."""

    def __init__(self, paths: Sequence[Path]) -> None:
        self.folder = Path(tempfile.mkdtemp())
        self.names: dict[Path, str] = {}
        for it in paths:
            text = it.read_text(encoding="utf-8")
            self.names[it] = re.search(r"^([A-Z][\w-]*)\s*(\{[^}]*\})?\s*DEFINITIONS", text, re.MULTILINE).group(1)
            for form, simpler in _SIMPLER:
                text = text.replace(form, simpler)
            (self.folder / f"{self.names[it]}.asn1").write_text(text, encoding="utf-8")
        for it in self.names.values():
            self.run("erlc", "-bber", "+der", f"{it}.asn1")
        (self.folder / "numbers").mkdir()
        (self.folder / "numbers/rand.erl").write_text(_NUMBERS, encoding="utf-8")
        (self.folder / "oracle.erl").write_text(_PROGRAM, encoding="utf-8")
        self.run("erlc", "-o", "numbers", "numbers/rand.erl")
        self.run("erlc", "oracle.erl")

    def __enter__(self) -> "Erlang":
        return self

    def __exit__(self, *_: object) -> None:
        shutil.rmtree(self.folder)

    def run(self, *words: str, given: str = "") -> list[str]:
        """The lines that a program prints in the folder."""
        return subprocess.run(words, cwd=self.folder, input=given, capture_output=True, encoding="utf-8", check=True).stdout.splitlines()

    def values(self, types: Sequence[tuple[Path, str]], count: int) -> list[tuple[Path, str, bytes]]:
        """The encodings of as many random values of each type, without those that Erlang can't make."""
        paths = {name: it for it, name in self.names.items()}
        wanted = "".join(f"{{'{self.names[path]}','{kind}',{count}}}.\n" for path, kind in types)
        (self.folder / "wanted").write_text(wanted, encoding="utf-8")
        lines = self.run("erl", "+hmax", "5000000", "+hmaxel", "false", "-noshell", "-run", "oracle", "values", "wanted", "-s", "init", "stop")
        parts = [it.split(" ") for it in dict.fromkeys(lines) if it.count(" ") == 2]
        return [(paths[module], kind, bytes.fromhex(data)) for module, kind, data in parts if module in paths]

    def outcomes(self, rows: Sequence[tuple[Path, str, bytes]]) -> list[str]:
        """For each row `same`, `refused`, `unwritable`, or the other bytes that Erlang writes of what it read."""
        text = "".join(f"{self.names[path]} {kind} {data.hex()}\n" for path, kind, data in rows)
        return self.run("erl", "-noshell", "-s", "oracle", "read", "-s", "init", "stop", given=text)
