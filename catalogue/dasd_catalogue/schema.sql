-- The schema of a catalogue, version 2. Numbers of places are decimal; hashes are SHA-256, 32 bytes; times are nanoseconds since 1970.

-- what the catalogue as a whole is: 'schema', its version; 'hash', the functions by which `said` is made; 'program', the version of dasd
CREATE TABLE about (name TEXT PRIMARY KEY, value TEXT NOT NULL) WITHOUT ROWID;

-- folders and files that were asked for
CREATE TABLE roots (path BLOB PRIMARY KEY) WITHOUT ROWID;

-- each scan: when it began and ended (NULL: it was ended), by what it was run, how many files it asked, and how many seconds it took
CREATE TABLE scans (number INTEGER PRIMARY KEY, began TEXT NOT NULL, ended TEXT, engine TEXT NOT NULL, asked INTEGER NOT NULL, seconds REAL);

-- each name that was met. state: 'waiting' to be asked, 'volume', 'part' (a further file of an image), 'link' (another name of a file that has
-- its own row), 'fault' (nothing could be had of it), 'other' (no image), 'gone' (it was there once)
CREATE TABLE files (
    id INTEGER PRIMARY KEY,
    path BLOB NOT NULL UNIQUE,          -- the bytes of its path, relative to the catalogue's folder where it is below it
    shown TEXT NOT NULL,                -- its path for people: what can't be printed is \x and two digits, a backslash is two
    state TEXT NOT NULL,
    of INTEGER REFERENCES files (id),   -- of a part the first file, of a link the file
    part INTEGER NOT NULL DEFAULT 1,    -- its number among the files of its image
    named INTEGER NOT NULL DEFAULT 0,   -- whether it was asked for by its own name
    packing TEXT NOT NULL DEFAULT '',   -- 'gzip', 'xz'
    size INTEGER, modified INTEGER, digest BLOB
);
CREATE INDEX files_by_state ON files (state, id);
CREATE INDEX files_by_of ON files (of) WHERE of IS NOT NULL;

-- what could not be had of a file: of what (a command of dasd, 'unpack', 'text', 'walk', or 'here' where the machine was at fault), and why
CREATE TABLE faults (file INTEGER NOT NULL REFERENCES files (id), number INTEGER NOT NULL, stage TEXT NOT NULL, text TEXT NOT NULL,
    PRIMARY KEY (file, number)) WITHOUT ROWID;

-- each volume; serial and owner are NULL where it has no label, and what stands behind them where it has no table of contents
CREATE TABLE volumes (
    file INTEGER PRIMARY KEY REFERENCES files (id),
    serial TEXT, owner TEXT, contents TEXT, free_tracks INTEGER, free_blocks INTEGER,
    model INTEGER, cylinders INTEGER, heads INTEGER, slot_size INTEGER,
    errors INTEGER, warnings INTEGER, notes INTEGER,
    said BLOB,                          -- the hash of what it says
    tracks BLOB                         -- by zlib: a list in JSON, for each track [bytes used, records], or null where it can't be read
);
CREATE INDEX volumes_by_said ON volumes (said);
CREATE INDEX volumes_by_serial ON volumes (serial);

-- what is wrong with a volume, errors and warnings each; source: 'check', 'vtoc' or 'extract'
CREATE TABLE findings (
    volume INTEGER NOT NULL REFERENCES volumes (file), number INTEGER NOT NULL, source TEXT NOT NULL, severity TEXT NOT NULL, kind TEXT,
    part INTEGER, cylinder INTEGER, head INTEGER, record INTEGER, name TEXT, text TEXT NOT NULL,
    PRIMARY KEY (volume, number)) WITHOUT ROWID;
CREATE INDEX findings_by_kind ON findings (kind);

-- how many notes of each kind `dasd check --strict` has
CREATE TABLE notes (volume INTEGER NOT NULL REFERENCES volumes (file), kind TEXT NOT NULL, count INTEGER NOT NULL,
    PRIMARY KEY (volume, kind)) WITHOUT ROWID;

-- each data set, in the order of the table of contents; size, said and whole are those of all members together for a partitioned one, and NULL for one
-- that can't be unloaded
CREATE TABLE data_sets (
    volume INTEGER NOT NULL REFERENCES volumes (file), number INTEGER NOT NULL, name TEXT NOT NULL, file_name TEXT,
    organisation TEXT NOT NULL, format TEXT NOT NULL, record_length INTEGER, block_length INTEGER, key_length INTEGER,
    tracks INTEGER, used INTEGER, created TEXT, expires TEXT,
    extents TEXT NOT NULL,              -- a list in JSON, of lists of cylinder, head, cylinder, head
    extent_types TEXT,                  -- a list in JSON, of the type of each; NULL where dasd does not tell them
    size INTEGER, said BLOB, text INTEGER REFERENCES texts (id), whole INTEGER,
    PRIMARY KEY (volume, number)) WITHOUT ROWID;
CREATE INDEX data_sets_by_name ON data_sets (name);
CREATE INDEX data_sets_by_said ON data_sets (said) WHERE said IS NOT NULL;
CREATE INDEX data_sets_by_text ON data_sets (text) WHERE text IS NOT NULL;

-- each member of a partitioned data set, in the order of its directory
CREATE TABLE members (
    volume INTEGER NOT NULL REFERENCES volumes (file), data_set INTEGER NOT NULL, number INTEGER NOT NULL, name TEXT NOT NULL,
    file_name TEXT NOT NULL, size INTEGER NOT NULL, said BLOB NOT NULL, text INTEGER REFERENCES texts (id), whole INTEGER NOT NULL,
    PRIMARY KEY (volume, data_set, number)) WITHOUT ROWID;
CREATE INDEX members_by_name ON members (name);
CREATE INDEX members_by_said ON members (said);
CREATE INDEX members_by_text ON members (text) WHERE text IS NOT NULL;

-- each text once, however many data sets and members have it; packed is its UTF-8 by zlib
CREATE TABLE texts (id INTEGER PRIMARY KEY, digest BLOB NOT NULL UNIQUE, length INTEGER NOT NULL, packed BLOB NOT NULL);

-- the words of the texts, by their ids
CREATE VIRTUAL TABLE words USING fts5 (text, content = '', tokenize = "unicode61 tokenchars '@#$_'");
