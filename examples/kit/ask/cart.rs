//! A plug-in that asks: the price of a cart, as cart.c computes it, over a closure and an iterator.

mod ask;

/// The host answers the number of an article with its price, each four bytes.
fn price_of(article: i32) -> Option<i64> {
    let mut price = [0; 4];
    let known = ask::ask(&article.to_le_bytes(), &mut price) == Ok(4);
    known.then(|| i32::from_le_bytes(price).into())
}

/// One of the first article, two of the second, and so on; -1 if a price is not known.
#[no_mangle]
extern "C" fn total(articles: i32) -> i64 {
    let rows: Option<Vec<i64>> = (0..articles).map(|it| Some(price_of(it)? * i64::from(it + 1))).collect();
    rows.map_or(-1, |rows| rows.iter().sum())
}
