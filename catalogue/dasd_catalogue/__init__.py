"""A catalogue of an archive of packs: asked by the program `dasd`, kept in SQLite, and searched.

    dasd-catalogue scan packs
    dasd-catalogue find 'SYS1.*'

docs/CATALOGUE.md is its page. The modules, from below: `names`, `images`, `says` and `program` know files and what `dasd` prints of them; `asking`
with `placing` and `unloading` asks one volume; `engines` asks many, here or over Dask; `walk`, `database`, `merge`, `store` and `scan` keep what
came; `queries` and `taking` answer; `layout`, `owners` and `picture` draw a volume; `packs` gives packs, and `pack_page` is the page that opens them;
`markup`, `pages`, `sides`, `serving` and `report` show it all in a browser; `command` is the command.
"""

__version__ = "1.2.0"
