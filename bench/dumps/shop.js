// A shop with so many customers, for a heap snapshot: node shop.js SNAPSHOT CUSTOMERS
'use strict';
const v8 = require('v8');

class Item {
  constructor(order, number) {
    this.order = order;
    this.text = 'item ' + number;
    this.price = number + 0.5;
  }
}

class Order {
  constructor(customer, number, before) {
    this.customer = customer;
    this.items = [0, 1].map((at) => new Item(this, number * 10 + at));
    this.before = before;
    this.note = 'a note of order ' + number;
    this.onPaid = () => customer.orders.indexOf(this);
  }
}

class Customer {
  constructor(number) {
    this.name = 'customer ' + number;
    this.orders = [];
    this.settings = new Map([['language', 'language of ' + number], ['address', { street: 'street ' + number }]]);
  }
}

const customers = new Map();
let before = null;
for (let number = 0; number < Number(process.argv[3]); number++) {
  const customer = new Customer(number);
  customers.set(customer.name, customer);
  for (let at = 0; at < 3; at++) {
    before = new Order(customer, number * 3 + at, before);
    customer.orders.push(before);
  }
}
globalThis.customers = customers;
v8.writeHeapSnapshot(process.argv[2]);
process.exit(0);
