Register Stream S (a);
Register Stream T (b, c);
Query q: Select Istream(a, c) From S [Range 2], T [Rows 3] Where a = b And c < 3;
