// NEXMark, query 1: each bid, its price converted at 908 for 1000.
Register Stream Bid (auction, bidder, price);
Query converted: Select Rstream(auction, bidder, price * 908 / 1000) From Bid [Now];
