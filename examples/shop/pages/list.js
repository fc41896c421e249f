// What the list of items shows.
import {add, round} from '../money';
import {label} from '../labels';
import type {Item} from '../cart';

export function heading(item: Item): string {
  return item.name + item.note;
}

export function first(items: Array<Item>): string {
  const item = items[0];
  return item.title;
}

export function note_length(item: Item): number {
  if (item.note != null) {
    return item.note.length;
  }
  return item.note.length;
}
