"""A page to look at: what a web page says, where it says so, and why it is refused.

`app` is the page's server, `reading` what is told of a page, `origins` a second reading that tells the place of each triple,
`workers` the bounded processes in which pages are read, `fetching` how a page is fetched from its address, and `drawing` the
drawing of a graph. Nothing here is proved.
"""
