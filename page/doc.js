// The field for a name on the page of the library: without it the page is whole, but for the field.
const field = document.getElementById("filter");
field.hidden = false;
field.oninput = () => {
  const word = field.value.toLowerCase();
  for (const it of document.querySelectorAll("[data-names]")) it.hidden = !it.dataset.names.toLowerCase().includes(word);
};
