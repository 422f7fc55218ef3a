"""The command line that the tools share. `record` and `sample` have their own, because they are
copied to the recorded host without the other packages.

A tool is a script in `tools/` that calls `entry.start` with the name of its package's module
`command`. The function `main() -> int` of that module passes a function to `running.run`.
`running.run` reports a `Fault` with the tool's name, exits without a message on an interrupt or if
nobody reads the output, and returns a `status.Status`. The arguments are parsed by `parser.Parser`,
which raises a Fault on a usage error.

An option that several tools share is defined by a function in `options`, with its help text and its
type. To add such an option, write a function there, use a parser of `values` or `times` as its
type, and call the function in the `parser` of each tool.
"""
