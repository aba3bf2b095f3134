"""The language of designs: its tokens, trees and names, the model of a design, and its step code."""
