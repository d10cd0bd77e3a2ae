// Package source reads a Go program: its tree, its types, and what Go itself says against it.
package source

import (
	"errors"
	"go/ast"
	"go/parser"
	"go/scanner"
	"go/token"
	"go/types"
	"regexp"
	"strconv"
	"strings"

	"rewind/carry/notes"
)

// Limit is the greatest length of a source, in bytes.
const Limit = 1 << 20

// Source is a program that Go accepts, as far as the known packages tell.
type Source struct {
	Name string
	Fset *token.FileSet
	File *ast.File
	Info *types.Info
	Pkg  *types.Package
	// The operand of each loop over a whole number, which stands in the tree as a loop with three parts.
	Counted map[*ast.ForStmt]ast.Expr
}

// undeclared is what Go says of a name that is not among those known of a package.
var undeclared = regexp.MustCompile(`^(\w+) not declared by package (\w+)$`)

// ErrSyntax is the error of a text that is no Go.
var ErrSyntax = errors.New("the source has a syntax error")

// Load reads a program. What Go says against it, and imports of packages that are not known, become notes.
func Load(name string, text []byte, told *notes.List) (*Source, error) {
	fset := token.NewFileSet()
	file, err := parser.ParseFile(fset, name, text, parser.ParseComments|parser.AllErrors)
	if err != nil {
		tellSyntax(err, told)
		return nil, ErrSyntax
	}
	source := &Source{Name: name, Fset: fset, File: file, Counted: map[*ast.ForStmt]ast.Expr{}}
	unknown := source.tellImports(told)
	importer := &stubs{fset, map[string]*types.Package{}}
	faults := source.check(importer)
	if source.count() > 0 {
		faults = source.check(importer)
	}
	for _, fault := range faults {
		if name := undeclared.FindStringSubmatch(fault.Msg); name != nil {
			told.Add(fset.Position(fault.Pos), notes.Left, "packages", name[2]+"."+name[1]+" is not carried", "pass what it gives as a number")
		} else if !fault.Soft && !source.isOf(fault, unknown) {
			told.Add(fset.Position(fault.Pos), notes.Left, "go", "Go does not accept this: "+fault.Msg, "")
		}
	}
	return source, nil
}

// tellSyntax notes syntax errors in Go's own words.
func tellSyntax(err error, told *notes.List) {
	var list scanner.ErrorList
	if !errors.As(err, &list) {
		told.Add(token.Position{Line: 1, Column: 1}, notes.Left, "syntax", err.Error(), "")
	}
	for _, fault := range list {
		told.Add(fault.Pos, notes.Left, "syntax", "syntax error: "+fault.Msg, "")
	}
}

// tellImports notes the imports of unknown packages, and gives the names by which they are used.
func (s *Source) tellImports(told *notes.List) map[string]bool {
	unknown := map[string]bool{}
	for _, it := range s.File.Imports {
		path, _ := strconv.Unquote(it.Path.Value)
		if IsKnown(path) {
			continue
		}
		what, advice := "the package "+path+" is not known here", "leave out what needs it, or pass its results as numbers"
		switch path {
		case "unsafe", "reflect", "C":
			what, advice = "the package "+path+" reaches behind the language", "write the program without it"
		}
		told.Add(s.Fset.Position(it.Pos()), notes.Left, "import", what, advice)
		unknown[path[strings.LastIndex(path, "/")+1:]] = true
		if it.Name != nil {
			unknown[it.Name.Name] = true
		}
	}
	return unknown
}

// check finds the types of the program, and gives all that Go says against it.
func (s *Source) check(importer types.Importer) []types.Error {
	var faults []types.Error
	s.Info = &types.Info{
		Types: map[ast.Expr]types.TypeAndValue{}, Defs: map[*ast.Ident]types.Object{}, Uses: map[*ast.Ident]types.Object{},
		Selections: map[*ast.SelectorExpr]*types.Selection{}, Implicits: map[ast.Node]types.Object{},
		Instances: map[*ast.Ident]types.Instance{}, Scopes: map[ast.Node]*types.Scope{},
	}
	config := types.Config{Importer: importer, Error: func(err error) {
		var fault types.Error
		if errors.As(err, &fault) {
			faults = append(faults, fault)
		}
	}}
	s.Pkg, _ = config.Check("main", s.Fset, []*ast.File{s.File}, s.Info)
	return faults
}

// isOf says whether a fault only comes from a package that is not known.
func (s *Source) isOf(fault types.Error, unknown map[string]bool) bool {
	if strings.HasPrefix(fault.Msg, "could not import") {
		return true
	}
	for name := range unknown {
		if strings.Contains(fault.Msg, name+".") || strings.HasSuffix(fault.Msg, " "+name) {
			return true
		}
	}
	return false
}

// count writes each loop over a whole number as a loop with three parts, in the tree, and says how many there were.
func (s *Source) count() int {
	found := 0
	ast.Inspect(s.File, func(node ast.Node) bool {
		switch it := node.(type) {
		case *ast.BlockStmt:
			found += s.countAll(it.List)
		case *ast.CaseClause:
			found += s.countAll(it.Body)
		case *ast.CommClause:
			found += s.countAll(it.Body)
		case *ast.LabeledStmt:
			one := []ast.Stmt{it.Stmt}
			found += s.countAll(one)
			it.Stmt = one[0]
		}
		return true
	})
	return found
}

func (s *Source) countAll(list []ast.Stmt) int {
	found := 0
	for at, stmt := range list {
		if loop, ok := stmt.(*ast.RangeStmt); ok && isWhole(s.Info.Types[loop.X].Type) {
			list[at] = s.counted(loop)
			found++
		}
	}
	return found
}

func isWhole(t types.Type) bool {
	basic, ok := t.(*types.Basic)
	if !ok && t != nil {
		basic, ok = t.Underlying().(*types.Basic)
	}
	return ok && basic.Info()&types.IsInteger != 0
}

// counted is the loop with three parts that does what a loop over a whole number does. The number is found once.
func (s *Source) counted(loop *ast.RangeStmt) *ast.ForStmt {
	at := loop.X.Pos()
	end := func() ast.Expr { return loop.X }
	index := &ast.Ident{NamePos: loop.For, Name: "turn"}
	if key, ok := loop.Key.(*ast.Ident); ok && key.Name != "_" {
		index = key
	}
	use := func() *ast.Ident { return &ast.Ident{NamePos: index.NamePos, Name: index.Name} }
	zero := ast.Expr(&ast.BasicLit{ValuePos: at, Kind: token.INT, Value: "0"})
	if named := s.Info.Types[loop.X].Type; !types.Identical(types.Default(named), types.Typ[types.Int]) {
		if basic, ok := named.(*types.Basic); ok {
			zero = &ast.CallExpr{Fun: &ast.Ident{NamePos: at, Name: basic.Name()}, Lparen: at, Args: []ast.Expr{zero}, Rparen: at}
		}
	}
	tok := loop.Tok
	if tok == token.ILLEGAL {
		tok = token.DEFINE
	}
	init := &ast.AssignStmt{Lhs: []ast.Expr{index}, TokPos: at, Tok: tok, Rhs: []ast.Expr{zero}}
	if s.Info.Types[loop.X].Value == nil {
		last := &ast.Ident{NamePos: at, Name: "turns"}
		init.Lhs, init.Rhs = append(init.Lhs, last), append(init.Rhs, loop.X)
		end = func() ast.Expr { return &ast.Ident{NamePos: at, Name: "turns"} }
	}
	counted := &ast.ForStmt{
		For: loop.For, Init: init, Cond: &ast.BinaryExpr{X: use(), OpPos: at, Op: token.LSS, Y: end()},
		Post: &ast.IncDecStmt{X: use(), TokPos: at, Tok: token.INC}, Body: loop.Body,
	}
	s.Counted[counted] = loop.X
	return counted
}

// Uses says whether the program uses a function of a package.
func (s *Source) Uses(path, name string) bool {
	for _, it := range s.Info.Uses {
		if it.Name() == name && it.Pkg() != nil && it.Pkg().Path() == path {
			return true
		}
	}
	return false
}

// Closes says whether the program closes a channel.
func (s *Source) Closes() bool {
	for _, it := range s.Info.Uses {
		if builtin, ok := it.(*types.Builtin); ok && builtin.Name() == "close" {
			return true
		}
	}
	return false
}

// Check says whether Go accepts a program without packages.
func Check(text string) error {
	fset := token.NewFileSet()
	file, err := parser.ParseFile(fset, "carried.go", text, 0)
	if err != nil {
		return err
	}
	var first error
	config := types.Config{Error: func(err error) {
		var fault types.Error
		if errors.As(err, &fault) && !fault.Soft && first == nil {
			first = err
		}
	}}
	_, _ = config.Check("main", fset, []*ast.File{file}, nil)
	return first
}
