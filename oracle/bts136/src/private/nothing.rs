// No private field of this file is read.
