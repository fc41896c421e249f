// Amounts of money. This module has no errors, and knows no other one.
export type Currency = "EUR" | "USD";
export type Money = {+cents: number, +currency: Currency};

export const free: Money = {cents: 0, currency: "EUR"};

export function add(a: Money, b: Money): ?Money {
  if (a.currency !== b.currency) {
    return null;
  }
  return {cents: a.cents + b.cents, currency: a.currency};
}
