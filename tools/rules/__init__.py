"""The rules of documents, plans and rows, written anew from docs/ for comparing; nothing here is read from the code."""
