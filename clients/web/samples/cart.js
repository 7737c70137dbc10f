'use strict'

// What a cart comes to, in cents.
function total(cart, rates) {
  var sum = 0
  cart.items.forEach(function (item) {
    if (rates.indexOf(item.rate) !== -1) { // a known rate
      sum += item.price
    } else {
      warn('no rate for ' + item.name)
    }
  })
  return typeof cart.discount == 'number' ? sum - cart.discount : sum
}

module.exports = { total }
