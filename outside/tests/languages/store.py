"""The store of store.c."""
import os

file = os.open("new", os.O_WRONLY | os.O_CREAT | os.O_TRUNC, 0o644)
os.write(file, b"value")
os.ftruncate(file, 4)
os.fsync(file)
os.close(file)
os.rename("new", "value")
folder = os.open(".", os.O_RDONLY)
os.fsync(folder)
os.close(folder)
file = os.open("value", os.O_RDONLY)
assert os.read(file, 4) == b"valu"
os.close(file)
os.link("value", "other")
os.symlink("value", "way")
os.unlink("old")
os.mkdir("made")
os.rmdir("made")
