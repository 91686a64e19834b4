/* No file is opened; zlib includes this all the same. */
