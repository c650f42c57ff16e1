Register Stream S (a); Query q: Select Istream(a) From S [Now] x, S [Now] y;
