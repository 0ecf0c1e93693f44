"""What the tests share. No test is in this package.

| Modules | For |
|---|---|
| tested, sizes | which program and library are tested, in which sizes |
| counting, minutes | runs that end with a count, and how long their parts take |
| harness, refusing, holding, preloading | runs of the program: whole, in pieces, with a call for memory refused, with its memory counted |
| streams, plans, covered | streams and answers taken apart, the plan of each select, what a run of streams covered |
| model, referee | the judges of answers: plain lists of rows, and SQLite |
| random_streams, texts, joined, shapes, growth, hand | streams: random ones, patterns of use, and a new user's mistakes |
| drawn, prepared, calls | lines as statements, and as calls for the programs below programs/ |
| compiling, embedded, storms | the library from C, in this process, and with its selects asked to end |
| tape, reached | its calls written down, its instructions counted |
| binding, building_package, embedding, shell_modules, shells | the bindings and the shell |

programs/ has the programs in C, Python and Rust that embed the library; count_held.c and refuse_nth.c are preloaded.

What must hold: no module here imports a test.
"""
