// The price of the last order, where it changes.
Register Stream Orders (price, amount);
Query price: Select Istream(price) From Orders [Rows 1];
