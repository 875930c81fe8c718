"""What several tests need: connections, servers, streams, the model of transactions, its judge, and wrong servers."""
