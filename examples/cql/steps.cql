// A query reads another as a stream.
Register Stream Prices (price);
Query changes: Select Istream(price) From Prices [Rows 1];
Query jumps: Select Rstream(new.price - old.price As jump)
    From changes [Now] As new, changes [Rows 2] As old
    Where new.price > old.price + 10;
