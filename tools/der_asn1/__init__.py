"""A compiler from ASN.1 notation (X.680 to X.683, and X.208 of 1988) to the types of this library.

The folders, in the order in which a module goes through them. Each imports from those before it alone, but for `derive`, which `emit` knows:

| Folder | Its modules | What they do |
|---|---|---|
| `parse` | `source` | places in a text, errors and warnings |
| | `tokens`, `cursor` | the lexical items, with the comments next to them |
| | `tree` | the notation as data |
| | `built_in`, `values`, `constraints`, `types`, `classes`, `modules` | the parser |
| `meaning` | `scopes`, `values`, `objects`, `members`, `tagging` | names, values, objects, members and tags, resolved |
| | `intervals`, `subtypes` | what constraints allow |
| | `fitting`, `checks`, `module_checks` | what X.680 refuses beyond its grammar |
| | `library`, `library_table`, `rust_types`, `terms` | the types of the library, and terms |
| | `features`, `causes` | what the library lacks, and for which members |
| | `declarations`, `other_crates`, `wording`, `examples` | the types of a crate, names, and which types have a known value |
| | `meaning`, `types`, `bounds`, `tags`, `structures` | which type each type of a module is |
| `emit` | `crate`, `struct`, `choice`, `enum` and others | the files of a crate |
| | `layout`, `folder` | the layout that `rt fmt` has, which isn't needed to run this; what is in a crate's folder |
| | `printed` | terms as ASN.1 again |
| `derive` | | types that a file of Rust has |

`report` and `command` are the table and the command line. `test` runs the tests, and `corpus` the report over modules of others.
"""
