"""A crawl: the pages of web archives, read by many processes on one machine or many, each page's data written once.

An archive is cut into shards of records (`shards`); a shard is read by a worker (`working`), which hands the pages to a
child that is bounded in time and memory (`child`), and writes what they give whole or not at all (`outputs`). Dask has the
shards done (`scheduling`), and what is done is summed up (`sums`, `report`).
"""
