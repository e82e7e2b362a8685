// What the examples are called on the page.

export const TITLES = {
  lost_update: "An update that is lost",
  two_threads: "The update as one section",
  linked_list: "A list: one sums, one pushes",
  changed_path: "A path that changes meanwhile",
  protected: "One lock for many objects",
  procedure: "Moving money, both ways",
  locks_everything: "A lock on everything",
  one_class: "Two accounts, one class",
  account: "One account, one lock",
  two_names: "Two names for one object",
  aliased_store: "A store through another name",
  walk: "A walk through two nodes",
  null_reference: "A thread that stops at null",
  never_filled: "A path that nothing fills",
  local_only: "Nothing is shared",
  empty_section: "A section that does nothing",
};
