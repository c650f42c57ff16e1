Register Stream Quotes (sym, price);
Query high: Select Istream(q.sym, q.price) From Quotes [Range 2 Seconds] As q Where q.price > 10145;
