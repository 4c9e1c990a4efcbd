"""The tool of operators: how a group is, whether to worry, copies, journals, bridges and metrics.

`main` has the words and their options; each word has a module of its own. The code needs the
package `urbd` of clients/python, and nothing else outside the standard library."""
