// NEXMark, query 2: the bids for some auctions.
Register Stream Bid (auction, bidder, price);
Query selected: Select Rstream(auction, price) From Bid [Now]
    Where auction = 1007 Or auction = 1020 Or auction = 2001;
