import stdlib;
import shared3p;
domain office shared3p;

// What is bought is paid: the seller's prices, and for each order an article, a place in the list of prices, and how many of it. An article that the list
// doesn't have costs nothing.
void main() {
    office uint64[[1]] prices = argument("prices");
    office uint64[[1]] article = argument("article");
    office uint64[[1]] amount = argument("amount");

    office uint64[[1]] price = lookup(prices, article);
    publish("paid", sum(price * amount));
}
